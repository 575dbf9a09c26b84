// @ts-check
// While nobody sees the window, the caller's bids are read once a minute. Where one leads no more, the window's title says
// so, and the browser tells it, if the member wants that.
import { caller } from "../exchange/caller.js";
import { bidsByItem, titlesOf } from "../exchange/known.js";
import { notify } from "../elements/notify.js";
import { markTitle } from "../elements/title.js";
import { say } from "../words/language.js";

const PAUSE = 60_000;

/** @type {ReturnType<typeof setTimeout> | undefined} */
let timer;
/**
 * The items that the caller led, and the first one that was open.
 * @type {Set<number>}
 */
let led = new Set();
let first = 1;

async function look() {
  const open = [...(await bidsByItem(first)).values()].filter(bid => bid.state === "open");
  const lost = open.filter(bid => !bid.leading && led.has(bid.item)).map(bid => bid.item);
  led = new Set(open.filter(bid => bid.leading).map(bid => bid.item));
  first = open.reduce((least, bid) => Math.min(least, bid.item), Infinity);
  if (lost.length) {
    markTitle(say("page.outbid"));
    const titles = await titlesOf(lost);
    lost.forEach(item => notify(say("notices.you_were_outbid", { title: titles.get(item) }), `item ${item}`));
  }
}

// Whoever leads nothing can't be outbid, so then nothing is read.
async function lookAgain() {
  await look().catch(() => {});
  if (document.hidden && led.size > 0) {
    timer = setTimeout(lookAgain, PAUSE);
  }
}

export function watchWhileHidden() {
  document.addEventListener("visibilitychange", () => {
    clearTimeout(timer);
    if (document.hidden && caller.isMember) {
      led = new Set();
      first = 1;
      lookAgain();
    }
  });
}
