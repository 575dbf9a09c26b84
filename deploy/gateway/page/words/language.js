// @ts-check
// The language that the city chose: its words by key, from a file beside this one, and how it writes numbers and days.

/**
 * A word, or one for each number that it may count.
 * @typedef {string | Partial<Record<Intl.LDMLPluralRule, string>>} Word
 * @typedef {Record<string, Record<string, Word>>} Words the words of a language, by group and key
 */

const TWO_DECIMALS = { minimumFractionDigits: 2, maximumFractionDigits: 2 };
// Moments are handed over as clocks of the house's zone, as if that was UTC.
const ON_THAT_CLOCK = /** @type {const} */ ({ timeZone: "UTC" });

class Language {
  /** @param {Words} words */
  constructor(words) {
    const locale = String(words.language?.locale ?? "en-GB");
    this.words = words;
    this.plural = new Intl.PluralRules(locale);
    this.whole = new Intl.NumberFormat(locale);
    this.amount = new Intl.NumberFormat(locale, TWO_DECIMALS);
    this.writtenAmount = new Intl.NumberFormat(locale, { ...TWO_DECIMALS, useGrouping: false });
    this.percent = new Intl.NumberFormat(locale, { style: "percent", maximumFractionDigits: 2 });
    this.weekday = new Intl.DateTimeFormat(locale, { ...ON_THAT_CLOCK, weekday: "long" });
    this.day = new Intl.DateTimeFormat(locale, { ...ON_THAT_CLOCK, day: "numeric", month: "long", year: "numeric" });
    this.shortDay = new Intl.DateTimeFormat(locale, { ...ON_THAT_CLOCK, day: "numeric", month: "short" });
    this.time = new Intl.DateTimeFormat(locale, { ...ON_THAT_CLOCK, hour: "2-digit", minute: "2-digit", hourCycle: "h23" });
  }

  /**
   * The text of a key such as bid.taken. One that the file lacks is its own text.
   * @param {string} key @param {any} count
   */
  text(key, count) {
    const [group, name] = key.split(".");
    const found = this.words[group]?.[name] ?? key;
    if (typeof found === "string") {
      return found;
    }
    return found[this.plural.select(Number(count))] ?? found.other ?? key;
  }
}

export let language = new Language({});

/** @param {Words} words */
export function speak(words) {
  language = new Language(words);
}

/** @param {Content} value */
const shown = value => typeof value === "number" ? language.whole.format(value) : value;

/**
 * Texts that follow each other as one: a screen reader hears each text apart.
 * @param {Content[]} parts
 */
function joinTexts(parts) {
  /** @type {Content[]} */
  const joined = [];
  for (const part of parts) {
    const last = joined[joined.length - 1];
    if (typeof part === "string" && typeof last === "string") {
      joined[joined.length - 1] = last + part;
    } else {
      joined.push(part);
    }
  }
  return joined;
}

/**
 * The parts of a sentence, with values in the places of their names: texts, numbers or elements. `count` chooses the form.
 * @param {string} key @param {Record<string, Content>} [values] @returns {Content[]}
 */
export function phrase(key, values = {}) {
  const parts = language.text(key, values.count).split(/\{(\w+)\}/);
  return joinTexts(parts.map((part, place) => place % 2 ? shown(values[part]) : part).filter(part => part !== ""));
}

/**
 * A sentence, with texts and numbers in the places of their names.
 * @param {string} key @param {Record<string, string | number>} [values]
 */
export const say = (key, values = {}) => phrase(key, values).join("");
