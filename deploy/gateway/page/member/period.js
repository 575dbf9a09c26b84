// @ts-check
// The days from which and up to which something is told.
import { make } from "../elements/dom.js";
import { dayField } from "../elements/fields.js";
import { form } from "../elements/form.js";
import { now } from "../time/clock.js";
import { dayAt, dayInWords } from "../time/moments.js";
import { say } from "../words/language.js";

/** @returns {[from: string, to: string]} */
function thisYear() {
  const year = dayAt(now()).slice(0, 4);
  return [`${year}-01-01`, `${year}-12-31`];
}

/**
 * The days that an address names, or those of this year.
 * @param {string} [first] @param {string} [last] @returns {[from: string, to: string]}
 */
export const periodOf = (first, last) => first && last ? [first, last] : thisYear();

/** @param {string} from @param {string} to */
export const periodInWords = (from, to) => say("period.days", { from: dayInWords(from), to: dayInWords(to) });

/**
 * What is said where a period has nothing.
 * @param {string} words
 */
export const nothingIn = words => make("p", { class: "empty" }, words);

/**
 * A form that leads to the same part of the page for other days.
 * @param {string} part @param {string} from @param {string} to
 */
export function periodForm(part, from, to) {
  const fields = [dayField(say("period.first"), from), dayField(say("period.last"), to)];
  const parts = form({
    fields, button: say("period.show"), waits: say("form.reads"),
    act: (/** @type {string} */ first, /** @type {string} */ last) => {
      if (last < first) {
        return { colour: "refused", sentence: say("fault.order") };
      }
      location.hash = `#/${part}/${first}/${last}`;
      return "";
    },
  });
  parts.node.classList.add("row");
  return parts.node;
}
