// @ts-check
// The page of an item. What may change is read again and again, and a change is announced.
import { read } from "../exchange/api.js";
import { caller } from "../exchange/caller.js";
import { categories, memberNow, nameOf, ownBid, reserveOf } from "../exchange/known.js";
import { link, make, memberLink, nameOrNone, paragraphs, quote, replace, titleOrNone } from "../elements/dom.js";
import { tell } from "../elements/news.js";
import { notify } from "../elements/notify.js";
import { markTitle } from "../elements/title.js";
import { hasEnded, secondsLeft, tick } from "../time/moments.js";
import { phrase, say } from "../words/language.js";
import { money } from "../words/money.js";
import { facts } from "./facts.js";
import { offers } from "./offer.js";
import { countsInWords } from "./rating.js";
import { salePart } from "./sale.js";
import { showOpenItems } from "./seller.js";
import { standing, stateInWords, stateOf } from "./standing.js";
import { talk } from "./talk.js";

/**
 * @typedef {ReturnType<typeof facts>} Facts
 * @typedef {ReturnType<typeof offers>} Offers
 * @typedef {ReturnType<typeof talk>} Talk
 */

// Every so many seconds the item is read again: oftener near its end, and seldom once it is over.
const OFTEN = 1;
const OPEN = 4;
const OVER = 30;
const NEAR = 60;
// Its questions are read again after so many seconds, and what could not be read at first after so many.
const TALK = 60;
const RETRY = 4;

/** @param {Item} item */
function pace(item) {
  if (item.state !== "open") {
    return OVER;
  }
  return !hasEnded(item) && secondsLeft(item.end) < NEAR ? OFTEN : OPEN;
}

/** @param {Item} item */
const hasOwnBid = item => caller.isMember && item.seller !== caller.number && item.count > 0;

/**
 * An item as it is, with the caller's own bid for it. Whoever bids raises the count, so the own bid is read where that
 * has changed.
 * @param {Stand} before @returns {Promise<Stand>}
 */
async function look(before) {
  const number = before.item.item;
  const item = await read(`/items/${number}`);
  if (before.item.count === item.count) {
    return { item, bid: before.bid };
  }
  return { item, bid: hasOwnBid(item) ? await ownBid(number) : undefined };
}

/** @param {number} number @returns {Promise<Stand>} */
async function firstLook(number) {
  const [item, bid] = await Promise.all([read(`/items/${number}`), caller.isMember ? ownBid(number) : undefined]);
  return { item, bid };
}

/** @param {Stand} one @param {Stand} two */
const isSame = (one, two) => JSON.stringify(one) === JSON.stringify(two);

/** @param {Stand} stand */
const isOutbid = ({ item, bid }) => stateOf(item) === "open" && standing(item, bid)?.[0] === "out";

/**
 * The word before the window's title, which is seen among other windows.
 * @param {Stand} stand
 */
const markOf = stand => isOutbid(stand) ? say("page.outbid") : "";

/**
 * What changed for who looks on, in sentences.
 * @param {Stand} before @param {Stand} after
 */
function changeInWords(before, after) {
  const words = standing(after.item, after.bid)?.[1] ?? "";
  return [
    after.item.price === before.item.price ? "" : say("item.news_price", { price: money(after.item.price) }),
    after.item.state === before.item.state ? "" : say("item.news_over", { state: stateInWords(after.item) }),
    words === standing(before.item, before.bid)?.[1] ? "" : words,
  ].filter(sentence => sentence !== "").join(" ");
}

/**
 * Tells a change: in the title, in the news, and where the caller was outbid by the browser.
 * @param {Stand} before @param {Stand} after @param {boolean} isAnnounced
 */
function announce(before, after, isAnnounced) {
  markTitle(markOf(after));
  tell(isAnnounced ? changeInWords(before, after) : "");
  if (isOutbid(after) && !isOutbid(before)) {
    notify(say("notices.you_were_outbid", { title: titleOrNone(after.item.title) }), `item ${after.item.item}`);
  }
}

/**
 * Shows the forms that are of use. The keyboard goes to the price, where it was in one that is gone.
 * @param {Offers} offer @param {Facts} about
 */
function keepKeyboard(offer, about) {
  const active = document.activeElement;
  const hadKeyboard = offer.node.contains(active);
  offer.update();
  if (hadKeyboard && active?.getClientRects().length === 0) {
    about.focus();
  }
}

/**
 * The parts of the page that follow the item, and the call that reads it anew.
 * @param {Stand} first @param {Talk} conversation
 */
function itemParts(first, conversation) {
  const now = { ...first };
  const about = facts();
  const sale = salePart(() => refresh());
  const offer = offers(now, isAnnounced => refresh(isAnnounced));
  // Nothing in here waits, so the parts never show two states.
  function update() {
    about.update(now);
    keepKeyboard(offer, about);
    conversation.update(now.item);
    tick();
  }
  // What takes further reads, for which nothing waits.
  function touchUp() {
    about.askLeader(now.item);
    sale.update(now.item);
  }
  async function lookAgain(/** @type {boolean} */ isAnnounced) {
    const after = await look(now);
    const before = { ...now };
    if (!isSame(before, after)) {
      Object.assign(now, after);
      update();
      announce(before, after, isAnnounced);
    }
    touchUp();
  }
  // One look after the other, so that no older one is shown after a newer.
  let last = Promise.resolve();
  const refresh = (isAnnounced = true) => {
    last = last.catch(() => {}).then(() => lookAgain(isAnnounced));
    return last;
  };
  const node = make("section", { class: "box offer", "aria-label": say("item.price_and_bids") }, about.node, offer.node, sale.node);
  update();
  touchUp();
  return { node, update, refresh, now, about, offer };
}

/** @param {WholeItem} item */
async function byline(item) {
  const [list, seller] = await Promise.all([categories(), memberNow(item.seller)]);
  const category = list.find(one => one.category === item.category);
  const name = category ? nameOrNone(category.name) : say("item.its_category");
  return phrase("item.byline", { category: link(`category/${item.category}`, quote(name)), lot: item.lot,
    seller: memberLink(item.seller, nameOrNone(seller.name)), counts: countsInWords(seller) });
}

/** @param {WholeItem} item */
const story = item => make("section", { class: "box story" }, make("h2", {}, say("item.about")),
  item.text ? paragraphs(item.text) : make("p", { class: "soft" }, say("item.no_text")));

/**
 * What the caller has sealed as the seller.
 * @param {Item} item
 */
async function ownReserve(item) {
  return item.seller === caller.number && typeof item.met === "boolean" ? reserveOf(item.item) : null;
}

/**
 * Does some work once, when the end of this item comes: other items on the page have countdowns of their own.
 * @param {Visit} visit @param {Stand} now @param {() => void} work
 */
function onOwnEnd(visit, now, work) {
  let wasOpen = stateOf(now.item) === "open";
  visit.onEnd(() => {
    if (wasOpen && stateOf(now.item) === "ended") {
      wasOpen = false;
      work();
    }
  });
}

/** @param {number} number @returns {Promise<boolean>} */
async function isWatched(number) {
  return caller.isMember && (await read("/me/watches")).items.some((/** @type {Item} */ item) => item.item === number);
}

// What else the seller has open, of what ends first.
const MORE = 6;

/** @param {Visit} visit @param {Item} item @param {Element} place */
async function showMore(visit, item, place) {
  if (item.seller === caller.number) {
    return;
  }
  const seller = memberLink(item.seller, await nameOf(item.seller));
  const heading = make("h2", {}, phrase("item.more_from", { seller }));
  await showOpenItems(visit, item.seller, place, {
    choose: open => open.filter(one => one.item !== item.item).slice(0, MORE),
    frame: parts => parts.length ? [make("section", {}, heading, ...parts)] : [],
  });
}

/**
 * What is of use beside the price, and comes after it.
 * @param {WholeItem} item @param {Element} of @param {ReturnType<typeof itemParts>} parts @param {Talk} conversation
 */
async function complete(item, of, { about, offer }, conversation) {
  const [line, reserve, watched] = await Promise.all([byline(item), ownReserve(item), isWatched(item.item),
    conversation.fill()]);
  replace(of, ...line);
  if (reserve !== null) {
    about.tellReserve(reserve);
  }
  offer.watch(watched);
}

/** @param {Visit} visit @param {string} number @returns {Promise<Shown>} */
export async function item(visit, number) {
  const first = await firstLook(Number(number));
  const conversation = talk(first.item);
  const parts = itemParts(first, conversation);
  const { node, update, refresh, now } = parts;
  visit.onEnd(() => {
    update();
    markTitle(markOf(now));
  });
  onOwnEnd(visit, now, () => tell(say("item.end_has_come")));
  visit.repeat(() => pace(now.item), refresh);
  const of = make("p", { class: "of" }, say("item.lot", { lot: first.item.lot }));
  let isComplete = false;
  const fill = async () => {
    await (isComplete ? conversation.fill() : complete(first.item, of, parts, conversation));
    isComplete = true;
  };
  visit.repeat(() => isComplete ? TALK : RETRY, fill);
  const more = make("div");
  fill().then(() => showMore(visit, first.item, more)).catch(() => {});
  return { title: titleOrNone(first.item.title), mark: markOf(now), of,
    nodes: [make("div", { class: "two" }, node, story(first.item), conversation.node), more] };
}
