// @ts-check
// What the house does at the end: it closes what is due, and settles sales.
import { read, send } from "../exchange/api.js";
import { itemsOf, namesOf } from "../exchange/known.js";
import { itemLink, make, memberLink } from "../elements/dom.js";
import { action } from "../elements/form.js";
import { makeRefill } from "../elements/place.js";
import { AMOUNT, SUBJECT, TEXT, table } from "../elements/table.js";
import { allItems, provenance } from "../items/lists.js";
import { bidsInWords } from "../items/standing.js";
import { hasEnded, inWords } from "../time/moments.js";
import { say } from "../words/language.js";
import { money } from "../words/money.js";
import { settleButton, withParties } from "./settle.js";

// Without a catalogue so many items of each category are looked through.
const ENOUGH = 1000;
// Each is read as it is now. So many at most are shown, those that ended first.
const MOST = 200;
// After so many seconds what is shown is read again.
const FRESH = 60;

/** @typedef {import("./settle.js").Sale} Sale */

/** @param {{ sold: number, unsold: number }} answer */
const closingInWords = ({ sold, unsold }) => sold + unsold === 0 ? say("close.nothing") : say("close.done", { sold, unsold });

/** @param {Item} item */
const isToDo = item => item.state === "sold" || item.state === "open" && hasEnded(item);

/**
 * What is due and what waits to be settled, each as it is now: a list may be a minute old.
 * @param {Visit} visit
 */
async function readWaiting(visit) {
  const [list, { rate }] = await Promise.all([allItems(visit, ENOUGH), read("/house")]);
  const numbers = list.items.filter(isToDo).sort((one, two) => one.end - two.end).map(item => item.item);
  const items = await itemsOf(numbers.slice(0, MOST));
  const sold = items.filter(item => item.state === "sold");
  const names = await namesOf(sold.flatMap(item => [item.seller, Number(item.leader)]), Infinity);
  return { list, more: Math.max(0, numbers.length - MOST), due: items.filter(item => item.state === "open"),
    sales: sold.map(item => withParties(item, names, rate)) };
}

/** @param {Item[]} items */
const dueTable = items => table(say("close.caption"),
  [[say("column.item"), SUBJECT], [say("column.price"), AMOUNT], [say("column.bids"), TEXT], [say("column.ended"), TEXT]],
  items.map(item => [itemLink(item), money(item.price), bidsInWords(item), inWords(item.end)]));

/** @param {Sale} sale @param {() => Promise<void>} after @returns {Content[]} */
const saleRow = (sale, after) => [itemLink(sale), memberLink(Number(sale.leader), sale.buyer), memberLink(sale.seller, sale.from),
  inWords(sale.closed ?? sale.end), money(sale.price), money(sale.fee), money(sale.net), settleButton(sale, after)];

/** @param {Sale[]} sales @param {() => Promise<void>} after */
const salesTable = (sales, after) => table(say("settle.caption"),
  [[say("column.item"), SUBJECT], [say("column.buyer"), TEXT], [say("column.seller"), TEXT], [say("column.closed"), TEXT],
    [say("column.price"), AMOUNT], [say("column.fee"), AMOUNT], [say("column.for_seller"), AMOUNT], ["", TEXT]],
  sales.map(sale => saleRow(sale, after)));

/** @param {string} text */
const none = text => make("p", { class: "soft" }, text);

/** @param {() => Promise<void>} again */
function closeButton(again) {
  return action({
    button: say("close.button"), waits: say("close.waits"),
    act: async () => {
      const answer = await send("/close");
      await again().catch(() => {});
      return closingInWords(answer);
    },
  }).node;
}

/** @param {Visit} visit @returns {Promise<Shown>} */
export async function settling(visit) {
  const toClose = make("div");
  const toSettle = make("div");
  const refillDue = makeRefill(toClose);
  const refillSales = makeRefill(toSettle);
  const look = () => readWaiting(visit);
  const show = (/** @type {Awaited<ReturnType<typeof readWaiting>>} */ { list, more, due, sales }) => {
    refillDue(due, () => [due.length ? dueTable(due) : none(say("close.none"))]);
    refillSales([list.moment, sales, more], () => [list.moment === null ? provenance(list) : null,
      sales.length ? salesTable(sales, again) : none(say("settle.none")), more ? none(say("settle.more", { count: more })) : null]);
  };
  const again = async () => show(await look());
  await visit.follow(FRESH, look, show);
  return { title: say("nav.settling"), nodes: [
    make("section", { class: "box" }, make("h2", {}, say("close.title")), toClose, closeButton(again)),
    make("section", {}, toSettle)] };
}
