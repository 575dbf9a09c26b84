// @ts-check
// Items as cards, in lists of all kinds.
import { itemLink, make } from "../elements/dom.js";
import { countdown, inWords } from "../time/moments.js";
import { phrase, say } from "../words/language.js";
import { money } from "../words/money.js";
import { badge, bidsInWords, priceInWords, reserveInWords, standingInShort, stateOf } from "./standing.js";

/** @param {Item} item @returns {Content} */
function when(item) {
  if (stateOf(item) === "open") {
    return phrase("item.ends_in", { left: countdown(item.end) });
  }
  return item.state === "open" ? say("item.to_be_closed") : inWords(item.closed ?? item.end);
}

/**
 * When it ends or has ended, for a table.
 * @param {Item} item
 */
export const endInShort = item => make("span", {}, stateOf(item) === "open" ? phrase("item.in", { left: countdown(item.end) })
  : inWords(item.closed ?? item.end));

/**
 * What a card says below the bids.
 * @param {Item} item
 */
function extras(item) {
  const isOpen = stateOf(item) === "open";
  return [
    isOpen && item.buy_now !== null && item.count === 0 ? say("buy.button", { price: money(item.buy_now) }) : "",
    isOpen && item.met === false ? reserveInWords(item) : "",
  ].filter(words => words !== "");
}

/** @param {Item} item @param {Bid} [bid] */
function card(item, bid) {
  return make("li", { class: "card" },
    make("p", { class: "badges" }, badge(item), standingInShort(item, bid)),
    make("h3", {}, itemLink(item)),
    make("p", { class: "price" }, make("span", { class: "what" }, priceInWords(item)), " ", money(item.price)),
    make("p", { class: "soft" }, bidsInWords(item), ", ", when(item)),
    ...extras(item).map(words => make("p", { class: "soft" }, words)));
}

/** @param {Item[]} items @param {BidsByItem} bids */
export const cards = (items, bids) => make("ul", { class: "cards" }, ...items.map(item => card(item, bids.get(item.item))));

/**
 * What cards show, to know whether it has changed.
 * @param {Item[]} items @param {BidsByItem} bids
 */
export const signOf = (items, bids) => items.map(item => [item, stateOf(item), bids.get(item.item)]);
