// @ts-check
// Price, leader, end and state of an item, on its page.
import { caller } from "../exchange/caller.js";
import { nameAtHand, nameByNumber, nameOf } from "../exchange/known.js";
import { make, memberLink, put, replace } from "../elements/dom.js";
import { countdown, time } from "../time/moments.js";
import { phrase, say } from "../words/language.js";
import { amount, currency, money } from "../words/money.js";
import { badge, bidsInWords, priceInWords, reserveInWords, standing, stateOf } from "./standing.js";

/**
 * The end: as time that is left while it is open, else as the moment at which it was over.
 * @param {Item} item @returns {Content[]}
 */
function ending(item) {
  if (stateOf(item) === "open") {
    return [phrase("item.page_ends_in", { left: make("strong", {}, countdown(item.end)) }), make("br"), time(item.end)];
  }
  const moment = time(item.closed ?? item.end);
  return item.state === "open" ? phrase("item.end_came", { moment }) : phrase("item.over_since", { moment });
}

/** Who leads. A name that isn't known yet is put once it is read, and asked for again where that failed. */
function leaderPart() {
  const node = make("p");
  let isAsked = false;
  const show = (/** @type {Item} */ item) => {
    if (item.leader === null) {
      replace(node);
      return;
    }
    const name = item.leader === caller.number ? say("item.you") : nameAtHand(item.leader) ?? nameByNumber(item.leader);
    const member = memberLink(item.leader, name);
    replace(node, item.state === "open" ? phrase("item.led_by", { member }) : phrase("item.sold_to", { member }));
  };
  const ask = async (/** @type {Item} */ item) => {
    if (isAsked || item.leader === null || item.leader === caller.number || nameAtHand(item.leader) !== undefined) {
      return;
    }
    isAsked = true;
    await nameOf(item.leader).then(() => show(item), () => {});
    isAsked = false;
  };
  return { node, show, ask };
}

/** @param {Item} item */
function reserveBadge(item) {
  const words = reserveInWords(item);
  return words ? make("span", { class: `badge ${item.met ? "lead" : "quiet"}` }, words) : null;
}

/**
 * An amount in large letters, and the name of the money in small ones beside it.
 * @param {number} cents
 */
const inLarge = cents => [amount(cents), currency === "" ? null : make("small", {}, ` ${currency}`)];

// Price, state and end, with a call that puts them anew.
export function facts() {
  const parts = {
    badge: make("p", { class: "badges" }), what: make("h2", { class: "what", tabindex: "-1" }),
    price: make("p", { class: "amount-now" }), bids: make("p"),
  };
  const leader = leaderPart();
  const end = make("p");
  const reserve = make("p");
  const stands = make("p");
  const node = make("div", { class: "facts" }, ...Object.values(parts), leader.node, end, reserve, stands);
  const update = (/** @type {Stand} */ { item, bid }) => {
    replace(parts.badge, badge(item), reserveBadge(item));
    put(parts.what, priceInWords(item));
    replace(parts.price, inLarge(item.price));
    put(parts.bids, bidsInWords(item));
    leader.show(item);
    replace(end, ...ending(item));
    const [kind, words] = standing(item, bid) ?? ["none", ""];
    stands.className = `standing ${kind}`;
    put(stands, words);
  };
  // The reserve, which is the seller's to see, stays.
  const tellReserve = (/** @type {number} */ sealed) => put(reserve, say("item.your_reserve", { amount: money(sealed) }));
  return { node, update, tellReserve, askLeader: leader.ask, focus: () => parts.what.focus() };
}
