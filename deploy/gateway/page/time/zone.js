// @ts-check
// The zone of the house, which it tells as a POSIX rule such as CET-1CEST,M3.5.0,M10.5.0/3.

const NAME = "([A-Za-z]{3,}|<[A-Za-z0-9+-]{3,}>)";
const TIME = "([+-]?\\d{1,3}(?::\\d{1,2}){0,2})";
const DATE = "(J\\d{1,3}|\\d{1,3}|M\\d{1,2}\\.\\d\\.\\d)";
const SUMMER = `${NAME}${TIME}?(?:,${DATE}(?:/${TIME})?,${DATE}(?:/${TIME})?)?`;
const RULE = new RegExp(`^${NAME}${TIME}(?:${SUMMER})?$`);

const DAY = 86400;
const HOUR = 3600;
const TWO = 2 * HOUR;

const UTC = { standard: { name: "UTC", offset: 0 }, summer: null, begins: null, ends: null };

/** @param {string} name */
const bare = name => name.replace(/[<>]/g, "");

/**
 * Hours, minutes and seconds as seconds, with the sign that is before them.
 * @param {string} text
 */
function length(text) {
  const [hours, minutes = 0, rest = 0] = text.replace(/[+-]/, "").split(":").map(Number);
  return (text.startsWith("-") ? -1 : 1) * (hours * HOUR + minutes * 60 + rest);
}

/**
 * A rule counts what is to be added to get UTC: an offset is the other way round.
 * @param {string} text
 */
const offset = text => 0 - length(text);

/**
 * @typedef {{ name: string, offset: number }} Clock what a clock goes by, with the seconds that it is ahead of UTC
 * @typedef {{ date: string, time: number }} Turn when clocks are set
 * @typedef {{ standard: Clock, summer: Clock | null, begins: Turn | null, ends: Turn | null }} Zone
 */

/**
 * The parts of a rule, or null where it is none that is known here.
 * @param {string} rule @returns {Zone | null}
 */
export function parse(rule) {
  const found = RULE.exec(rule);
  if (!found) {
    return null;
  }
  const [, name, west, summer, summerWest, begin, beginTime, end, endTime] = found;
  const standard = { name: bare(name), offset: offset(west) };
  if (summer === undefined) {
    return { ...UTC, standard };
  }
  return {
    standard,
    summer: { name: bare(summer), offset: summerWest ? offset(summerWest) : standard.offset + HOUR },
    begins: { date: begin ?? "M3.2.0", time: beginTime ? length(beginTime) : TWO },
    ends: { date: end ?? "M11.1.0", time: endTime ? length(endTime) : TWO },
  };
}

/** @param {number} year @param {number} month @param {number} day */
const dayNumber = (year, month, day) => Date.UTC(year, month, day) / (DAY * 1000);

/** @param {number} year */
const isLeap = year => new Date(Date.UTC(year, 1, 29)).getUTCMonth() === 1;

/**
 * The day of the month of a rule such as M10.5.0: its fifth week is the last that there is.
 * @param {number} year @param {string} text
 */
function weekday(year, text) {
  const [month, week, day] = text.slice(1).split(".").map(Number);
  const first = dayNumber(year, month - 1, 1);
  // Day 0 was a Thursday.
  const found = first + ((day - (first + 4)) % 7 + 7) % 7 + 7 * (week - 1);
  return found < dayNumber(year, month, 1) ? found : found - 7;
}

/**
 * The number of a rule's day in a year. J counts without the 29th of February.
 * @param {number} year @param {string} date
 */
function dayOf(year, date) {
  if (date.startsWith("M")) {
    return weekday(year, date);
  }
  if (!date.startsWith("J")) {
    return dayNumber(year, 0, 1) + Number(date);
  }
  const day = Number(date.slice(1));
  return dayNumber(year, 0, day) + (isLeap(year) && day > 59 ? 1 : 0);
}

/**
 * When clocks are set in a year, from what a clock has gone by before.
 * @param {number} year @param {Turn} rule @param {Clock} before
 */
const turn = (year, rule, before) => dayOf(year, rule.date) * DAY + rule.time - before.offset;

/**
 * What a clock in the zone goes by at a moment.
 * @param {Zone} zone @param {number} moment @returns {Clock}
 */
export function at(zone, moment) {
  if (!zone.summer || !zone.begins || !zone.ends) {
    return zone.standard;
  }
  const year = new Date((moment + zone.standard.offset) * 1000).getUTCFullYear();
  const begin = turn(year, zone.begins, zone.standard);
  const end = turn(year, zone.ends, zone.summer);
  const isAfterBegin = begin <= moment;
  const isBeforeEnd = moment < end;
  // South of the equator summer goes over the turn of the year.
  const isSummer = begin < end ? isAfterBegin && isBeforeEnd : isAfterBegin || isBeforeEnd;
  return isSummer ? zone.summer : zone.standard;
}

/**
 * The first moment at which a clock in the zone shows a day and a time. In an hour that is left out it is as if the clock
 * had not been set yet.
 * @param {Zone} zone @param {string} day @param {string} time @returns {number}
 */
export function momentOf(zone, day, time) {
  const shown = Date.parse(`${day}T${time}Z`) / 1000;
  const both = [zone.standard, zone.summer ?? zone.standard].map(part => shown - part.offset);
  const right = both.filter(moment => moment + at(zone, moment).offset === shown);
  return right.length ? Math.min(...right) : both[0];
}
