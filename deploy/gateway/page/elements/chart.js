// @ts-check
// Prices by day, as bars: what was sold, and what was bought.
import { draw, make } from "./dom.js";
import { dayInShort, dayInWords } from "../time/moments.js";
import { phrase, say } from "../words/language.js";
import { money } from "../words/money.js";

const HEIGHT = 120;
const FLOOR = 130;
const LABEL = 148;
const WIDEST = 26;
// A label needs so much room.
const ROOM = 60;
const NARROWEST = 280;
const BROADEST = 980;

/** @typedef {[day: string, sums: { sell: number, buy: number }]} Day */

/**
 * What was sold and bought on each day of the lines, in the order of the days.
 * @param {Line[]} lines @returns {Day[]}
 */
function byDay(lines) {
  const days = new Map();
  for (const { day, role, price } of lines) {
    const sums = days.get(day) ?? { sell: 0, buy: 0 };
    sums[role] += price;
    days.set(day, sums);
  }
  return [...days].sort(([one], [two]) => one < two ? -1 : 1);
}

/** @param {{ left: number, width: number, amount: number, most: number, kind: "sold" | "bought", day: string }} bar */
function drawBar({ left, width, amount, most, kind, day }) {
  const height = amount === 0 ? 0 : Math.max(1, amount / most * HEIGHT);
  const words = { day: dayInWords(day), amount: money(amount) };
  return draw("rect", { x: left, y: FLOOR - height, width, height, class: kind },
    draw("title", {}, kind === "sold" ? say("chart.sold_on", words) : say("chart.bought_on", words)));
}

/** @param {Day[]} days @param {number} most @param {number} breadth */
function drawBars(days, most, breadth) {
  const room = breadth / days.length;
  const width = Math.min(WIDEST, room * 0.4);
  const every = Math.ceil(ROOM / room);
  return days.flatMap(([day, { sell, buy }], place) => {
    const middle = room * (place + 0.5);
    const name = draw("text", { x: middle, y: LABEL, "text-anchor": "middle" }, dayInShort(day));
    return [drawBar({ left: middle - width, width, amount: sell, most, kind: "sold", day }),
      drawBar({ left: middle, width, amount: buy, most, kind: "bought", day }), place % every === 0 ? name : null];
  });
}

/** @param {string} kind @param {string} text */
const key = (kind, text) => make("span", { class: `key ${kind}` }, text);

/**
 * The chart, or nothing where there are no lines. The table has the same amounts, so a screen reader hears the sum alone.
 * @param {Line[]} lines
 */
export function chart(lines) {
  const days = byDay(lines);
  if (!days.length) {
    return null;
  }
  const most = days.reduce((greatest, [, { sell, buy }]) => Math.max(greatest, sell, buy), 0);
  // As broad as the window, so that letters have their size on a phone too.
  const breadth = Math.min(BROADEST, Math.max(NARROWEST, innerWidth - 80));
  const picture = draw("svg", { viewBox: `0 0 ${breadth} ${LABEL + 6}`, role: "img",
    "aria-label": say("chart.name", { count: days.length, amount: money(most) }) },
  draw("line", { x1: 0, x2: breadth, y1: FLOOR, y2: FLOOR }), ...drawBars(days, most, breadth));
  const caption = phrase("chart.caption", { sold: key("sold", say("chart.sold")), bought: key("bought", say("chart.bought")),
    amount: money(most) });
  return make("figure", { class: "chart" }, make("figcaption", {}, caption), picture);
}
