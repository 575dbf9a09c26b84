// @ts-check
// Items to choose from: those of all categories that end soonest, those of one category, and those that a search finds.
import { findTitles } from "../exchange/catalogue.js";
import { caller } from "../exchange/caller.js";
import { bidsFor, categories } from "../exchange/known.js";
import { inOrder } from "../exchange/shelf.js";
import { link, make, nameOrNone, put, titleOrNone, quote } from "../elements/dom.js";
import { action } from "../elements/form.js";
import { makeRefill } from "../elements/place.js";
import { say } from "../words/language.js";
import { cards, signOf } from "./cards.js";
import { allItems, itemsOfCategory, openItems, provenance } from "./lists.js";

/** @typedef {import("./lists.js").List} List */

// With more categories than this, and without a catalogue, the first page names them alone: each would be read for it.
const MOST_CATEGORIES = 20;
// After so many seconds what is shown is read again.
const FRESH = 60;
// A search shows so many at most.
const MOST_FOUND = 200;

/** @param {string} title @param {Content[]} nodes */
const section = (title, ...nodes) => make("section", {}, make("h2", {}, title), ...nodes);

/**
 * Some items under a heading, or nothing where there are none.
 * @param {string} title @param {Item[]} items @param {BidsByItem} bids
 */
export const itemsUnder = (title, items, bids) => items.length ? section(title, cards(items, bids)) : null;

/** @param {Category} one */
export const categoryLink = one => link(`category/${one.category}`, quote(nameOrNone(one.name)));

/** @param {Category[]} list */
const choices = list => make("ul", { class: "choices", "aria-label": say("items.categories") },
  ...list.map(one => make("li", {}, categoryLink(one))));

function nothingYet() {
  const next = caller.isHouse ? link("house", say("items.add_category")) : link("sell", say("items.list_first"));
  return make("p", { class: "empty" }, say("items.nothing_open"), " ", next);
}

/**
 * The field that leads to what a search finds.
 * @param {string} [words]
 */
function searchForm(words = "") {
  const input = make("input", { type: "search", id: "search", autocomplete: "off", value: words });
  const submit = (/** @type {Event} */ event) => {
    event.preventDefault();
    const wanted = input.value.trim();
    if (wanted) {
      node.dataset.isSent = "true";
      location.hash = `#/search/${encodeURIComponent(wanted)}`;
    }
  };
  const node = make("form", { class: "row search", role: "search", submit },
    make("div", { class: "field find" }, make("label", { for: "search" }, say("items.find_in_all")), input),
    make("button", { type: "submit", class: "plain" }, say("items.find")));
  return node;
}

/**
 * The button that shows one part more of a list. Who comes back finds as many as there were.
 * @param {Visit} visit @param {() => Promise<List>} show
 */
function moreButton(visit, show) {
  const parts = action({
    button: say("items.more"), waits: say("form.reads"), kind: "plain",
    act: async () => {
      visit.kept.parts = (visit.kept.parts ?? 1) + 1;
      const { isWhole } = await show();
      parts.button.hidden = isWhole;
      return isWhole ? say("items.all_here") : "";
    },
  });
  return parts;
}

/** @param {Category[]} list @param {number | null} moment */
const isReadable = (list, moment) => moment !== null || list.length <= MOST_CATEGORIES;

/** @param {Visit} visit @returns {Promise<Shown>} */
export async function front(visit) {
  const place = make("div");
  const refill = makeRefill(place);
  const more = moreButton(visit, async () => show(await look()));
  const look = async () => {
    const list = await categories();
    const open = await openItems(visit, list.slice(0, MOST_CATEGORIES), visit.kept.parts ?? 1);
    return { list, open, bids: await bidsFor(open.items) };
  };
  function show(/** @type {{ list: Category[], open: List, bids: BidsByItem }} */ { list, open, bids }) {
    const items = inOrder(open.items).open;
    more.button.hidden = open.isWhole || open.moment === null;
    refill([list, open.moment, signOf(items, bids)], () => [choices(list),
      isReadable(list, open.moment) ? section(say("items.ending_soonest"), provenance(open),
        items.length ? cards(items, bids) : nothingYet()) : null]);
    return open;
  }
  await visit.follow(FRESH, look, show);
  return { title: say("nav.items"), nodes: [searchForm(), place, more.node] };
}

/**
 * How many of a list are shown, and which ones it has.
 * @param {List} list @param {number} shown
 */
function countOf({ items, isWhole, moment }, shown) {
  const counts = { shown, count: items.length };
  if (isWhole) {
    return say("items.of_all", counts);
  }
  return say(moment === null ? "items.of_youngest" : "items.of_first", counts);
}

// Of the items that are at hand those with some words in their titles.
function filterPart() {
  const input = make("input", { type: "search", id: "find", autocomplete: "off", input: () => show() });
  const count = make("p", { class: "soft", role: "status" });
  const place = make("div");
  const refill = makeRefill(place);
  /** @type {{ list: List, bids: BidsByItem }} */
  let now = { list: { items: [], isWhole: true, moment: null }, bids: new Map() };
  function show(next = now) {
    now = next;
    const { list, bids } = now;
    const { open, over } = inOrder(findTitles(list.items, input.value));
    const shown = open.length + over.length;
    put(count, countOf(list, shown));
    refill([list.moment, signOf([...open, ...over], bids)], () => [list.moment === null ? null : provenance(list),
      itemsUnder(say("items.open"), open, bids), itemsUnder(say("items.over"), over, bids),
      shown ? null : make("p", { class: "empty" }, say("items.none_here"))]);
    return list;
  }
  const find = make("div", { class: "field find" }, make("label", { for: "find" }, say("items.find_in_titles")), input);
  return { show, nodes: [find, count, place] };
}

const backToAll = () => make("p", { class: "of" }, link("", say("items.all_categories")));

/** @param {Visit} visit @param {string} number @returns {Promise<Shown>} */
export async function category(visit, number) {
  const list = await categories();
  const { show, nodes } = filterPart();
  const look = async () => {
    const items = await itemsOfCategory(visit, Number(number), visit.kept.parts ?? 1);
    return { list: items, bids: await bidsFor(items.items) };
  };
  const more = moreButton(visit, async () => show(await look()));
  await visit.follow(FRESH, look, now => {
    show(now);
    more.button.hidden = now.list.isWhole;
  });
  const found = list.find(one => one.category === Number(number));
  return { title: found ? nameOrNone(found.name) : say("nav.items"), of: backToAll(), nodes: [...nodes, more.node] };
}

/**
 * How many were found, and that only the first are shown where they are too many.
 * @param {number} found @param {number} all
 */
const foundInWords = (found, all) => say("items.found", { count: found, all })
  + (found > MOST_FOUND ? ` ${say("items.first_found", { count: MOST_FOUND })}` : "");

/** @param {Visit} visit @param {string} encoded @returns {Promise<Shown>} */
export async function search(visit, encoded = "") {
  const words = decode(encoded);
  const place = make("div");
  const refill = makeRefill(place);
  const look = async () => {
    const all = await allItems(visit);
    const matches = findTitles(all.items, words);
    return { all, matches, bids: await bidsFor(matches) };
  };
  await visit.follow(FRESH, look, ({ all, matches, bids }) => {
    const { open, over } = inOrder(matches);
    const both = [...open, ...over].slice(0, MOST_FOUND);
    refill([all.moment, signOf(both, bids)], () => [
      make("p", { class: "soft", role: "status" }, foundInWords(matches.length, all.items.length)), provenance(all),
      itemsUnder(say("items.open"), both.slice(0, open.length), bids),
      itemsUnder(say("items.over"), both.slice(open.length), bids)]);
  });
  return { title: words ? say("items.found_title", { words: titleOrNone(words) }) : say("items.find"), of: backToAll(),
    nodes: [searchForm(words), place] };
}

/**
 * The words of an address, as far as they are ones.
 * @param {string} text
 */
function decode(text) {
  try {
    return decodeURIComponent(text);
  } catch {
    return text;
  }
}
