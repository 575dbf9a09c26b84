// @ts-check
// Moments as people read them, in the house's zone.
import { make, put } from "../elements/dom.js";
import { language, say } from "../words/language.js";
import { isKnown, now } from "./clock.js";
import { at, momentOf, parse } from "./zone.js";

const MINUTE = 60;
const HOUR = 60 * MINUTE;
const DAY = 24 * HOUR;

/** @type {import("./zone.js").Zone} */
let zone = { standard: { name: "UTC", offset: 0 }, summer: null, begins: null, ends: null };
let isOfHouse = false;

/**
 * Takes the rule that the house tells. One that isn't known here leaves UTC, and the foot of the page says so.
 * @param {string} rule
 */
export function setZone(rule) {
  const found = parse(rule);
  isOfHouse = found !== null;
  zone = found ?? zone;
}

export const zoneInWords = () => isOfHouse ? say("time.zone_of_house", { zone: at(zone, now()).name }) : say("time.zone_unknown");

export const zoneName = () => isOfHouse ? at(zone, now()).name : "UTC";

/** @param {number} number */
const two = number => String(number).padStart(2, "0");

/**
 * A moment on a clock of the zone, with that clock's name.
 * @param {number} moment
 */
function clockAt(moment) {
  const { name, offset } = at(zone, moment);
  return { name, clock: new Date((moment + offset) * 1000) };
}

/** @param {Date} clock */
const timeOf = clock => `${two(clock.getUTCHours())}:${two(clock.getUTCMinutes())}`;

/**
 * The day as the interface writes it: 2026-11-26.
 * @param {number} moment
 */
export const dayAt = moment => clockAt(moment).clock.toISOString().slice(0, 10);

/**
 * As a field for a time has it: 18:00.
 * @param {number} moment
 */
export const timeAt = moment => timeOf(clockAt(moment).clock);

/**
 * Thursday 26 November 2026, 18:00 UTC.
 * @param {number} moment
 */
export function inWords(moment) {
  const { name, clock } = clockAt(moment);
  const { weekday, day, time } = language;
  return say("time.moment", { weekday: weekday.format(clock), day: day.format(clock), time: time.format(clock), zone: name });
}

/**
 * Of a day of the interface: 26 November 2026.
 * @param {string} day
 */
export const dayInWords = day => language.day.format(new Date(`${day}T00:00Z`));

/**
 * The same in short, for a chart: 26 Nov.
 * @param {string} day
 */
export const dayInShort = day => language.shortDay.format(new Date(`${day}T00:00Z`));

/** @param {string} day @param {string} time */
export const moment = (day, time) => momentOf(zone, day, time);

/** @param {number} at */
export const time = at => make("time", { datetime: new Date(at * 1000).toISOString() }, inWords(at));

/**
 * How long so many seconds are, by their two greatest units.
 * @param {number} seconds @returns {string}
 */
export function duration(seconds) {
  const [days, hours, minutes] = [Math.floor(seconds / DAY), Math.floor(seconds % DAY / HOUR), Math.floor(seconds % HOUR / MINUTE)];
  if (days > 0) {
    return `${say("time.days", { count: days })} ${say("time.hours", { count: hours })}`;
  }
  if (hours > 0) {
    return `${say("time.hours", { count: hours })} ${say("time.minutes", { count: minutes })}`;
  }
  return minutes > 0 ? `${say("time.minutes", { count: minutes })} ${say("time.seconds", { seconds: two(seconds % MINUTE) })}`
    : say("time.seconds", { seconds });
}

/** @param {number} end */
export const secondsLeft = end => Math.max(0, Math.floor(end - now()));

/** @param {{ end: number }} item */
export const hasEnded = item => isKnown() && item.end <= now();

/**
 * The time that is left, and goes on: tick puts it anew each second.
 * @param {number} end
 */
export const countdown = end => make("span", { class: "countdown", "data-end": end }, left(end));

/** @param {number} end */
function left(end) {
  if (!isKnown()) {
    return say("time.left_unknown");
  }
  const seconds = secondsLeft(end);
  return seconds > 0 ? duration(seconds) : say("time.none_left");
}

/**
 * How long ago a moment was, which goes on as a countdown does.
 * @param {number} moment
 */
export const age = moment => make("span", { class: "age", "data-since": moment }, since(moment));

/** @param {number} moment */
const since = moment => isKnown() ? duration(Math.max(0, Math.floor(now() - moment))) : say("time.since_unknown");

// The event by which the page hears that a countdown has run out.
export const ENDED = "countdown-ended";

/** @param {string} selector @returns {NodeListOf<HTMLElement>} */
const spans = selector => document.querySelectorAll(selector);

/**
 * Puts a countdown anew, and tells whether it has run out since the last time.
 * @param {HTMLElement} span
 */
function countDown(span) {
  const end = Number(span.dataset.end);
  put(span, left(end));
  span.classList.toggle("soon", isKnown() && secondsLeft(end) < 5 * MINUTE);
  if (!hasEnded({ end }) || span.dataset.isOver) {
    return false;
  }
  span.dataset.isOver = "true";
  return true;
}

export function tick() {
  const ends = [...spans(".countdown")].map(countDown);
  spans(".age").forEach(span => put(span, since(Number(span.dataset.since))));
  if (ends.includes(true)) {
    document.dispatchEvent(new Event(ENDED));
  }
}
