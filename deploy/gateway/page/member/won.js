// @ts-check
// What the caller has won and bought: what is still to be paid, and what is settled.
import { read } from "../exchange/api.js";
import { whatNow } from "../exchange/city.js";
import { itemsOf, namesOf } from "../exchange/known.js";
import { itemLink, link, make, memberLink } from "../elements/dom.js";
import { makeRefill } from "../elements/place.js";
import { AMOUNT, SUBJECT, TEXT, sums, table } from "../elements/table.js";
import { dayInWords } from "../time/moments.js";
import { say } from "../words/language.js";
import { money } from "../words/money.js";

// After so many seconds what is shown is read again.
const FRESH = 60;
// All days that a statement knows.
const ALWAYS = "1970-01-01/2100-12-31";

/**
 * A purchase, with what its line in the statement lacks.
 * @typedef {Line & { title: string, state: State, seller: string }} Purchase
 */

/** @returns {import("../elements/table.js").Column[]} */
const columns = () => [[say("column.item"), SUBJECT], [say("column.from"), TEXT], [say("column.on"), TEXT],
  [say("column.price"), AMOUNT]];

/** @param {Purchase[]} lines */
const sum = lines => lines.reduce((all, { price }) => all + price, 0);

/**
 * Each item is a read of its own, which tells whether it is settled. One that is stays so.
 * @param {Map<number, WholeItem>} settled @returns {Promise<Purchase[]>}
 */
async function look(settled) {
  /** @type {Statement} */
  const { lines } = await read(`/me/statement/${ALWAYS}`);
  const bought = lines.filter(line => line.role === "buy").reverse();
  const items = await itemsOf(bought.map(line => line.item).filter(number => !settled.has(number)));
  items.filter(item => item.state === "settled").forEach(item => settled.set(item.item, item));
  const known = new Map([...settled, ...items.map(item => /** @type {const} */ ([item.item, item]))]);
  const names = await namesOf(bought.map(line => line.other), Infinity);
  return bought.map(line => ({ ...line, title: known.get(line.item)?.title ?? "", state: known.get(line.item)?.state ?? "sold",
    seller: names.get(line.other) }));
}

/** @param {Purchase} line @returns {Content[]} */
const row = line => [itemLink(line), memberLink(line.other, line.seller), dayInWords(line.day), money(line.price)];

/** @param {string} title @param {Purchase[]} lines */
const part = (title, lines) => lines.length
  ? table(title, columns(), lines.map(row), [[say("won.all"), "", "", money(sum(lines))]]) : null;

const nothing = () => make("p", { class: "empty" }, say("won.none"), " ", link("", say("items.look")));

/** @param {Visit} visit @returns {Promise<Shown>} */
export async function won(visit) {
  const place = make("div");
  const refill = makeRefill(place);
  /** @type {Map<number, WholeItem>} */
  const known = new Map();
  await visit.follow(FRESH, () => look(known), lines => {
    const owed = lines.filter(line => line.state === "sold");
    const settled = lines.filter(line => line.state === "settled");
    refill(lines, () => lines.length ? [sums([[say("won.owe"), money(sum(owed))], [say("won.paid"), money(sum(settled))]]),
      owed.length ? whatNow() : null, part(say("won.to_pay"), owed), part(say("won.settled"), settled)] : [nothing()]);
  });
  return { title: say("won.title"), nodes: [place] };
}
