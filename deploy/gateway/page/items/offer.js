// @ts-check
// What a member may do with an open item: bid, buy, watch.
import { isLost, send } from "../exchange/api.js";
import { caller } from "../exchange/caller.js";
import { make, put, titleOrNone, quote } from "../elements/dom.js";
import { moneyField } from "../elements/fields.js";
import { action, form, label } from "../elements/form.js";
import { phrase, say } from "../words/language.js";
import { money } from "../words/money.js";
import { isSure } from "../elements/question.js";
import { standing, stateOf } from "./standing.js";

/**
 * Reads the item anew, and announces what changed if that is asked for.
 * @typedef {(isAnnounced: boolean) => Promise<void>} Refresh
 */

// A maximum so many times the next bid may be a slip of the finger.
const FAR = 10;

/** @param {Stand} now */
const floorOf = now => now.item.floor ?? 0;

/** @param {Stand} now */
const leastOf = now => now.bid?.leading ? now.bid.maximum + 1 : floorOf(now);

/** @param {Stand} now @param {number} amount */
const sayTooLow = (now, amount) => now.bid?.leading ? say("bid.not_over_own", { maximum: money(now.bid.maximum) })
  : say("bid.too_low", { amount: money(amount) });

/**
 * What came of a bid that was taken, by its answer and by the item as it was read after it.
 * @param {{ leader: number, floor: number, price: number }} answer @param {Stand} now
 * @returns {import("../elements/form.js").Done}
 */
function sayTaken(answer, now) {
  if (answer.leader !== caller.number) {
    return { colour: "refused", sentence: say("bid.taken_not_leading", { amount: money(answer.floor) }) };
  }
  if (now.bid?.leading === false) {
    return { colour: "refused", sentence: say("bid.taken_outbid", { amount: money(floorOf(now)) }) };
  }
  const price = money(answer.price);
  return now.item.met === false ? { colour: "short", sentence: say("bid.taken_short", { price }) } : say("bid.taken", { price });
}

/** @param {number} maximum @param {number} floor */
const isMeant = (maximum, floor) => maximum < FAR * floor || isSure({
  title: say("bid.sure", { maximum: money(maximum) }), text: say("bid.sure_text", { amount: money(floor) }),
  yes: say("bid.sure_yes", { maximum: money(maximum) }), no: say("bid.sure_no"),
});

/**
 * Sends a bid. Where no answer came, the caller's own bid tells whether it was taken. A look that fails after an answer
 * changes nothing of that: the next one comes in its turn.
 * @param {Stand} now @param {number} maximum @param {Refresh} refresh
 */
async function bid(now, maximum, refresh) {
  const look = () => refresh(false).catch(() => {});
  try {
    const answer = await send(`/items/${now.item.item}/bids`, { maximum });
    await look();
    return sayTaken(answer, now);
  } catch (refusal) {
    await look();
    if (isLost(refusal) && now.bid?.maximum === maximum) {
      return say("bid.taken_alone");
    }
    throw refusal;
  }
}

/** @param {Stand} now @param {Refresh} refresh */
function bidForm(now, refresh) {
  /**
   * What was shown when the button was pressed: after a refusal the item has another floor.
   * @type {Tried}
   */
  const shown = {};
  const next = make("strong");
  const field = moneyField(say("bid.maximum"), {
    hint: [next, " ", say("bid.sealed")], least: () => leastOf(now), tooLow: amount => sayTooLow(now, amount),
  });
  const parts = form({
    fields: [field], button: say("bid.button"), waits: say("bid.waits"), context: () => shown,
    isMeant: (/** @type {number} */ maximum) => isMeant(maximum, floorOf(now)), unless: say("bid.nothing"),
    act: async (/** @type {number} */ maximum) => {
      Object.assign(shown, { tried: "bid", floor: now.item.floor, maximum: now.bid?.maximum });
      const done = await bid(now, maximum, refresh);
      field.clear();
      return done;
    },
  });
  let stood = "";
  const update = () => {
    const stands = JSON.stringify(standing(now.item, now.bid));
    // What came of the last bid is said of how things stood.
    if (stands !== stood) {
      parts.forget();
    }
    stood = stands;
    const own = now.bid?.leading ? money(now.bid.maximum) : null;
    put(field.label, say(own === null ? "bid.maximum" : "bid.higher_maximum"));
    put(next, own === null ? say("bid.next", { amount: money(floorOf(now)) }) : say("bid.next_over_own", { maximum: own }));
    label(parts.button, say(own === null ? "bid.button" : "bid.raise"));
  };
  return { node: parts.node, update };
}

/** @param {Stand} now @param {Refresh} refresh */
function buyButton(now, refresh) {
  const price = money(now.item.buy_now ?? 0);
  const parts = action({
    button: say("buy.button", { price }), waits: say("buy.waits"), kind: "plain", context: () => ({ tried: "buy" }),
    isMeant: () => isSure({
      title: say("buy.sure", { price }), text: phrase("buy.sure_text", { title: quote(titleOrNone(now.item.title)) }),
      yes: say("buy.sure_yes", { price }), no: say("buy.sure_no"),
    }),
    unless: say("buy.nothing"),
    act: async () => {
      try {
        await send(`/items/${now.item.item}/purchase`);
      } finally {
        await refresh(false).catch(() => {});
      }
      return say("buy.done");
    },
  });
  return parts.node;
}

/**
 * The button by which a member watches the item. It is there once it is known whether it does so already.
 * @param {Stand} now
 */
function watchButton(now) {
  let isWatched = false;
  const words = () => say(isWatched ? "watch.stop" : "watch.begin");
  const parts = action({
    button: words(), waits: say("watch.waits"), kind: "plain", context: () => ({ tried: "watch" }),
    act: async () => {
      isWatched = (await send(`/items/${now.item.item}/${isWatched ? "unwatch" : "watch"}`)).watched;
      label(parts.button, words());
      return say(isWatched ? "watch.begun" : "watch.stopped");
    },
  });
  parts.node.hidden = true;
  const begin = (/** @type {boolean} */ value) => {
    isWatched = value;
    label(parts.button, words());
    parts.node.hidden = !caller.isMember;
  };
  return { node: parts.node, begin };
}

/**
 * The forms for an item as it is now, and the call that shows those that are of use.
 * @param {Stand} now @param {Refresh} refresh
 */
export function offers(now, refresh) {
  const mayBid = () => caller.isMember && now.item.seller !== caller.number && stateOf(now.item) === "open";
  const bids = bidForm(now, refresh);
  const purchase = buyButton(now, refresh);
  const watch = watchButton(now);
  const node = make("div", { class: "offers" }, bids.node, purchase, watch.node);
  const update = () => {
    bids.node.hidden = !mayBid();
    purchase.hidden = !mayBid() || now.item.buy_now === null || now.item.count > 0;
    bids.update();
  };
  return { node, update, watch: watch.begin };
}
