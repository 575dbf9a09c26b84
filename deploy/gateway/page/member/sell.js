// @ts-check
// The form by which a member lists an item.
import { Refusal, isLost, read, send } from "../exchange/api.js";
import { caller } from "../exchange/caller.js";
import { Shelf } from "../exchange/shelf.js";
import { now } from "../time/clock.js";
import { make, nameOrNone } from "../elements/dom.js";
import { choiceField, codeField, dayField, moneyField, textField, timeField } from "../elements/fields.js";
import { form } from "../elements/form.js";
import { categories, reserveOf } from "../exchange/known.js";
import { dayAt, moment, timeAt, zoneInWords } from "../time/moments.js";
import { language, say } from "../words/language.js";
import { MOST, money, writtenMoney } from "../words/money.js";
import { tell } from "../elements/news.js";

const WEEK = 7 * 86400;
const EVENING = "20:00";
// The last moment that the house takes.
const LAST = 4_102_444_800;

/**
 * What the form sends.
 * @typedef {object} Listing
 * @property {number} category
 * @property {string} title
 * @property {string} text
 * @property {number} start
 * @property {number | null} buy_now
 * @property {number | null} reserve
 * @property {number} end
 * @property {string} lot
 */

// A code that this seller has not used: the second in which the form was opened.
function freshCode() {
  const second = String(Math.floor(now() % 60)).padStart(2, "0");
  return `${dayAt(now()).slice(2)}-${timeAt(now())}${second}`.replace(":", "");
}

// The three amounts. The buy-now price is no less than the start price, and the reserve lies between both.
function amountFields() {
  const start = moneyField(say("sell.start"), {
    hint: say("sell.start_hint"), tooLow: least => say("sell.start_too_low", { amount: money(least) }),
  });
  const buyNow = moneyField(say("sell.buy_now"), {
    hint: say("sell.buy_now_hint"), isOptional: true, least: () => start.value ?? 1,
    tooLow: least => say("sell.buy_now_too_low", { amount: money(least) }),
  });
  const reserve = moneyField(say("sell.reserve"), {
    hint: say("sell.reserve_hint"), isOptional: true, least: () => (start.value ?? 0) + 1,
    tooLow: least => say("sell.reserve_too_low", { amount: money(least) }), most: () => buyNow.value ?? MOST,
  });
  return [start, buyNow, reserve];
}

/** @param {Category[]} list */
const fieldsOf = list => [
  choiceField(say("sell.category"), { choices: list.map(one => [one.category, nameOrNone(one.name)]) }),
  textField(say("sell.title"), { most: 80, hint: say("sell.title_hint") }),
  textField(say("sell.text"), { least: 0, most: 2000, rows: 6, hint: say("sell.text_hint") }),
  ...amountFields(),
  dayField(say("sell.day"), dayAt(now() + WEEK)),
  timeField(say("sell.time"), EVENING, zoneInWords()),
  codeField(say("sell.code"), { value: freshCode(), hint: say("sell.code_hint") }),
];

/**
 * The item that the caller has listed under a code, among those that its category got last, or undefined.
 * @param {number} category @param {string} lot
 */
async function listedUnder(category, lot) {
  const shelf = new Shelf(category);
  await shelf.readAnew((await read("/house")).items, 1);
  return shelf.items.find(item => item.seller === caller.number && item.lot === lot);
}

/** @type {("category" | "title" | "text" | "start" | "end" | "buy_now")[]} */
const SHOWN = ["category", "title", "text", "start", "end", "buy_now"];

/** @param {WholeItem} item @param {Listing} listing */
const isSame = (item, listing) => SHOWN.every(key => item[key] === listing[key]);

/** @param {unknown} refusal */
const mayBeThere = refusal => isLost(refusal) || refusal instanceof Refusal && refusal.answer.error === "LotExists";

/**
 * Lists an item, and gives its number. Where the answer was lost, now or before, the item is looked for by its code: who
 * sends the same again has not listed it twice.
 * @param {Listing} listing @returns {Promise<number>}
 */
async function listOnce(listing) {
  try {
    return (await send("/items", listing)).item;
  } catch (refusal) {
    const find = () => listedUnder(listing.category, listing.lot).catch(() => undefined);
    const item = mayBeThere(refusal) ? await find() : undefined;
    if (!item || !isSame(item, listing)) {
      throw refusal;
    }
    return item.item;
  }
}

/** @param {any[]} values in the order of the fields */
async function list(...[category, title, text, start, buyNow, reserve, day, time, lot]) {
  const end = Math.min(moment(day, time), LAST);
  const number = await listOnce({ category, title, text, start, buy_now: buyNow, reserve, end, lot });
  location.hash = `#/item/${number}`;
  setTimeout(() => tell(say("sell.done")), 500);
}

/**
 * What goes to the house of a sale: the rate is in ten-thousandths.
 * @param {number} rate
 */
const feeInWords = rate => rate === 0 ? null : say("sell.fee", { rate: language.percent.format(rate / 10_000) });

/**
 * Fills the form with what an item of before has. Its code is used, and its reserve is known to its seller alone.
 * @param {ReturnType<typeof fieldsOf>} fields @param {string} number
 */
async function fillAgain(fields, number) {
  /** @type {WholeItem} */
  const before = await read(`/items/${number}`);
  const reserve = typeof before.met === "boolean" && before.seller === caller.number ? await reserveOf(before.item) : null;
  const amount = (/** @type {number | null} */ cents) => cents === null ? "" : writtenMoney(cents);
  const values = [String(before.category), before.title, before.text.replace(/[\u2028\u2029]/g, "\n"), amount(before.start),
    amount(before.buy_now), amount(reserve)];
  values.forEach((value, place) => fields[place].write(value));
}

/** @param {Visit} visit @param {string} [again] the number of an item that is listed again @returns {Promise<Shown>} */
export async function sell(visit, again) {
  const [all, { rate }] = await Promise.all([categories(), read("/house")]);
  if (!all.length) {
    return { title: say("nav.sell"), nodes: [make("p", { class: "empty" }, say("sell.no_category"))] };
  }
  const fields = fieldsOf(all);
  if (again) {
    await fillAgain(fields, again);
  }
  const words = { button: say("sell.button"), waits: say("sell.waits") };
  const parts = form({ fields, ...words, context: () => ({ tried: "list" }), act: list });
  return { title: say("nav.sell"), nodes: [make("section", { class: "box narrow" },
    make("p", { class: "soft" }, feeInWords(rate), " ", say("sell.stays")), parts.node)] };
}
