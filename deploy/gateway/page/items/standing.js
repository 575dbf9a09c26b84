// @ts-check
// How an item stands, and how the caller stands in it.
import { caller } from "../exchange/caller.js";
import { make } from "../elements/dom.js";
import { hasEnded } from "../time/moments.js";
import { say } from "../words/language.js";
import { money } from "../words/money.js";

/** @typedef {"lead" | "short" | "out" | "own"} Kind how the caller stands, which also gives a colour */

/**
 * Until the house closes it an item whose end has come is still open, and takes nothing any more.
 * @param {Item} item
 */
export const stateOf = item => item.state === "open" && hasEnded(item) ? "ended" : item.state;

/** @param {Item} item */
export const stateInWords = item => say(`state.${stateOf(item)}`);

/** @param {Item} item */
export const badge = item => make("span", { class: `badge ${stateOf(item)}` }, stateInWords(item));

/** @param {Item} item */
export const isSold = item => ["sold", "settled"].includes(item.state);

/**
 * How many have bid. What was bought at once has no bids, and what is over gets none any more.
 * @param {Item} item
 */
export function bidsInWords(item) {
  if (item.count > 0) {
    return say("item.bids", { count: item.count });
  }
  if (isSold(item)) {
    return say("item.bought_at_once");
  }
  return say(stateOf(item) === "open" ? "item.no_bids_yet" : "item.no_bids");
}

/**
 * What the price is: of what nobody has bid for it is the start.
 * @param {Item} item
 */
export function priceInWords(item) {
  if (isSold(item)) {
    return say("item.sold_for");
  }
  const isOpen = stateOf(item) === "open";
  if (item.count === 0) {
    return say(isOpen ? "item.starts_at" : "item.started_at");
  }
  return say(isOpen ? "item.price_now" : "item.last_price");
}

/**
 * Whether the reserve is met, where the interface tells of one.
 * @param {{ met?: boolean | null }} item
 */
export function reserveInWords(item) {
  if (typeof item.met !== "boolean") {
    return "";
  }
  return say(item.met ? "item.met" : "item.not_met");
}

/**
 * Of a member that leads: below the reserve nobody gets the item.
 * @param {Item} item @param {string} maximum @returns {[Kind, string]}
 */
function standingOfLeader(item, maximum) {
  const isOver = stateOf(item) === "ended";
  if (item.met === false) {
    return ["short", isOver ? say("standing.led_short") : say("standing.leads_short", { maximum })];
  }
  return ["lead", isOver ? say("standing.led") : say("standing.leads", { maximum })];
}

/**
 * Of a member that leads no more.
 * @param {Item} item @param {string} maximum @returns {[Kind, string]}
 */
function standingOfOthers(item, maximum) {
  const key = { open: "standing.outbid", ended: "standing.outbid_at_end", unsold: "standing.unsold", sold: "standing.lost",
    settled: "standing.lost" }[stateOf(item)];
  return ["out", say(key, { maximum })];
}

/**
 * How the caller stands by its own bid: a kind, and some words.
 * @param {Item} item @param {Bid} [bid] @returns {[Kind, string] | null}
 */
export function standing(item, bid) {
  if (item.seller === caller.number) {
    return ["own", say("standing.own")];
  }
  if (isSold(item) && item.leader === caller.number) {
    return ["lead", say(item.count ? "standing.won" : "standing.bought", { price: money(item.price) })];
  }
  if (!bid) {
    return null;
  }
  const maximum = money(bid.maximum);
  return bid.leading && item.state === "open" ? standingOfLeader(item, maximum) : standingOfOthers(item, maximum);
}

/**
 * The same in a word or two, for lists; nothing where the item's own state says it: what nobody got isn't lost.
 * @param {Item} item @param {Bid} [bid]
 */
export function standingInShort(item, bid) {
  const [kind] = standing(item, bid) ?? [];
  if (!kind || kind === "out" && item.state === "unsold") {
    return null;
  }
  const isOver = item.state !== "open";
  const words = { own: say("standing.yours"), lead: say(isOver ? "standing.you_won" : "standing.you_lead"),
    out: say(isOver ? "standing.you_lost" : "standing.you_were_outbid"), short: say("standing.you_lead_short") };
  return make("span", { class: `badge ${kind}` }, words[kind]);
}
