// @ts-check
// What the city chose, from city.json beside the page: its language, the name by which its money goes, its terms, where to
// pay and to fetch, and whom to write to.
import { make } from "../elements/dom.js";
import { say, speak } from "../words/language.js";
import { setCurrency } from "../words/money.js";

/** @type {{ currency: string, fetch: string, language: string, pay: string, terms: string, write: string }} */
const city = { currency: "", fetch: "", language: "en", pay: "", terms: "", write: "" };

/**
 * A file of the page, or null where there is none.
 * @param {string} name @returns {Promise<any>}
 */
async function file(name) {
  const answer = await fetch(`${location.origin}/${name}`);
  return answer.ok ? answer.json() : null;
}

/**
 * The words of a language. The name is part of an address, so it has letters alone.
 * @param {string} name
 */
const wordsOf = name => /^[a-z]+$/.test(name) ? file(`words/${name}.json`) : null;

// What the city chose. A slip in its file is the city's to find, so the console has it, and the page goes on without.
async function readChoices() {
  try {
    return await file("city.json");
  } catch (fault) {
    if (!(fault instanceof SyntaxError)) {
      throw fault;
    }
    console.error(fault);
    return null;
  }
}

// Reads what the city chose, and the words of its language. A language that nobody wrote leaves English.
export async function readCity() {
  Object.assign(city, await readChoices());
  setCurrency(city.currency);
  speak(await wordsOf(city.language) ?? await wordsOf("en"));
}

/** Puts words into the elements of a page that name their keys. */
export function putWords() {
  document.documentElement.lang = say("language.locale");
  for (const element of document.querySelectorAll("[data-say]")) {
    element.textContent = say(/** @type {HTMLElement} */ (element).dataset.say ?? "");
  }
}

/** @param {[string, string][]} entries */
const linesOf = entries => entries.filter(([, text]) => text !== "")
  .map(([title, text]) => make("p", {}, make("strong", {}, title), " ", text));

/**
 * What who has won something has to know, or null. What is paid needs no word on where to pay.
 * @param {boolean} [isPaid] @returns {HTMLElement | null}
 */
export function whatNow(isPaid = false) {
  const lines = linesOf([[say("city.pay"), isPaid ? "" : city.pay], [say("city.fetch"), city.fetch], [say("city.write"), city.write]]);
  return lines.length ? make("div", { class: "city" }, ...lines) : null;
}

/** What stands at the foot of each page. */
export const atTheFoot = () => linesOf([[say("city.terms"), city.terms], [say("city.write"), city.write]]);
