// @ts-check
// Lists of items that come from the catalogue, or where there is none from the house.
import { catalogueOf } from "../exchange/catalogue.js";
import { each, read } from "../exchange/api.js";
import { Shelf } from "../exchange/shelf.js";
import { categories, itemsOf } from "../exchange/known.js";
import { make } from "../elements/dom.js";
import { age } from "../time/moments.js";
import { phrase, say } from "../words/language.js";

/**
 * `moment` is that of the catalogue, or null where the house's own lists served.
 * @typedef {{ items: Item[], isWhole: boolean, moment: number | null }} List
 */

// Of each category so many of the youngest items are read, where there is no catalogue.
const ENOUGH = 100;
// So many that are newer than the catalogue are read one by one.
const NEWER = 50;

/** @param {number[]} numbers of categories @param {number} enough */
async function readYoungest(numbers, enough) {
  const { items: count } = await read("/house");
  const shelves = numbers.map(number => new Shelf(number));
  await each(shelves, shelf => shelf.readAnew(count, enough));
  return { items: shelves.flatMap(shelf => shelf.items), isWhole: shelves.every(shelf => shelf.isWhole) };
}

/** @param {number} enough */
const readYoungestOfAll = async enough => readYoungest((await categories()).map(one => one.category), enough);

/**
 * What was listed since the catalogue was written, as far as it is little: who lists something finds it at once.
 * @param {import("../exchange/catalogue.js").Catalogue} catalogue
 */
async function readNewer(catalogue) {
  const { items: count } = await read("/house");
  const numbers = Array.from({ length: Math.max(0, count - catalogue.count) }, (_, place) => count - place);
  return itemsOf(numbers.slice(0, NEWER));
}

/**
 * A list of the catalogue by its name, or what the house's own lists have instead: a choice of the youngest items of some
 * categories. `chosen` says what belongs in the list; without a name it is all items.
 * @typedef {object} Wanted
 * @property {string | null} name
 * @property {number} parts
 * @property {(item: Item) => boolean} chosen
 * @property {() => Promise<{ items: Item[], isWhole: boolean }>} instead
 */

/** @param {Visit} visit @param {Wanted} wanted @returns {Promise<List>} */
async function readList(visit, { name, parts, chosen, instead }) {
  const catalogue = await catalogueOf(visit.signal);
  if (!catalogue) {
    const { items, isWhole } = await instead();
    return { items: items.filter(chosen), isWhole, moment: null };
  }
  const [list, newer] = await Promise.all([name === null ? catalogue.all() : catalogue.list(name, parts), readNewer(catalogue)]);
  return { items: [...newer.filter(chosen), ...list.items], isWhole: list.isWhole, moment: catalogue.moment };
}

/** @param {Visit} visit @param {Category[]} list @param {number} parts */
export const openItems = (visit, list, parts) => readList(visit, {
  name: "open", parts, chosen: item => item.state === "open",
  instead: () => readYoungest(list.map(one => one.category), ENOUGH),
});

/** @param {Visit} visit @param {number} seller @param {number} parts */
export const itemsOfSeller = (visit, seller, parts) => readList(visit, {
  name: `seller/${seller}`, parts, chosen: item => item.seller === seller, instead: () => readYoungestOfAll(ENOUGH),
});

/** @param {Visit} visit @param {number} category @param {number} parts */
export const itemsOfCategory = (visit, category, parts) => readList(visit, {
  name: `category/${category}`, parts, chosen: item => item.category === category,
  instead: () => readYoungest([category], ENOUGH * (2 * parts - 1)),
});

/**
 * All items: those of the catalogue, or the youngest of the house.
 * @param {Visit} visit @param {number} [enough]
 */
export const allItems = (visit, enough = ENOUGH) => readList(visit, {
  name: null, parts: 1, chosen: () => true, instead: () => readYoungestOfAll(enough),
});

/**
 * How old a list is, or that it has the youngest items alone.
 * @param {List} list @param {string} [newer] what the list lacks
 */
export function provenance({ items, moment, isWhole }, newer = say("list.price_elsewhere")) {
  if (moment !== null) {
    return make("p", { class: "soft" }, phrase("list.age", { age: age(moment) }), items.length ? ` ${newer}` : null);
  }
  return isWhole ? null : make("p", { class: "soft" }, say("list.youngest"));
}
