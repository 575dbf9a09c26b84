// @ts-check
// Questions to the seller and their answers, on the page of an item.
import { lists, read, send, whole } from "../exchange/api.js";
import { caller } from "../exchange/caller.js";
import { isolate, make, memberLink, paragraphs, put, quote } from "../elements/dom.js";
import { textField } from "../elements/fields.js";
import { form } from "../elements/form.js";
import { namesOf } from "../exchange/known.js";
import { tell } from "../elements/news.js";
import { makeKeeper } from "../elements/place.js";
import { countWaiting } from "../member/waiting.js";
import { phrase, say } from "../words/language.js";
import { stateOf } from "./standing.js";

const MOST = 500;

/**
 * A question below a line on whose it is, and its answer or that it waits for one.
 * @param {Content} by @param {Question} question
 */
export const exchangeEntry = (by, question) => make("li", {},
  make("p", { class: "soft" }, by),
  make("div", { class: "asked" }, paragraphs(question.text)),
  question.answer === null ? make("p", { class: "soft" }, say("talk.unanswered"))
    : make("div", { class: "answer" }, paragraphs(question.answer)));

/**
 * A question that waits for the caller, with the form for its answer. The form goes once the question is answered, so
 * `after` has to show what is left, and the news tell it.
 * @param {Content} by @param {Question} question @param {string} asker @param {() => Promise<void>} after
 */
export function waitingEntry(by, question, asker, after) {
  const field = textField(phrase("talk.answer_to", { name: quote(asker) }), { most: MOST, rows: 2, hint: say("talk.public") });
  const { node } = form({
    fields: [field], button: say("talk.answer", { name: isolate(asker) }), waits: say("form.sends"),
    context: () => ({ tried: "answer" }),
    act: async (/** @type {string} */ text) => {
      await send(`/items/${question.item}/questions/${question.asker}/${question.number}/answer`, { text });
      await after();
      countWaiting();
      tell(say("talk.answered"));
    },
  });
  return make("li", {}, make("p", { class: "soft" }, by), make("div", { class: "asked" }, paragraphs(question.text)), node);
}

/**
 * The caller's own questions on an item that wait: others don't see them. The list begins at the item.
 * @param {number} item
 */
async function readUnanswered(item) {
  /** @type {Map<number, Question>} */
  const found = new Map();
  for await (const list of lists("/me/questions", "asked", item)) {
    const own = list.filter(question => question.item === item && question.answer === null);
    own.forEach(question => found.set(question.number, question));
    if (list.some(question => question.item > item)) {
      break;
    }
  }
  return [...found.values()];
}

/**
 * What waits for the seller's answer on this item, of the first fifty that wait at all.
 * @param {number} item @returns {Promise<Question[]>}
 */
async function readWaiting(item) {
  const { questions } = await read("/me/waiting");
  return questions.filter((/** @type {Question} */ question) => question.item === item);
}

/** @typedef {{ published: Question[], own: Question[], waits: Question[] }} Questions */

/** @param {Item} item @returns {Promise<Questions>} */
async function questionsOf(item) {
  const published = await whole(`/items/${item.item}/questions`, "published");
  const isSeller = caller.number === item.seller;
  const own = caller.isMember && !isSeller ? await readUnanswered(item.item) : [];
  return { published, own, waits: isSeller ? await readWaiting(item.item) : [] };
}

/**
 * The entries of the list, each with a key by which it is known again. One that is answered is another entry.
 * @param {Questions} questions @param {TextsByNumber} names @param {() => Promise<void>} after @returns {[string, () => Element][]}
 */
function entriesOf({ published, own, waits }, names, after) {
  const key = (/** @type {Question} */ question) => `${question.asker}/${question.number}/${question.answer === null}`;
  const waiting = (/** @type {Question} */ question) => {
    const name = names.get(question.asker);
    return waitingEntry(phrase("talk.asks", { name: quote(name) }), question, name, after);
  };
  const answered = (/** @type {Question} */ question) => exchangeEntry(
    phrase("talk.asked", { name: memberLink(question.asker, names.get(question.asker)) }), question);
  return [
    ...waits.map(question => entry(key(question), () => waiting(question))),
    ...own.map(question => entry(key(question), () => exchangeEntry(say("talk.you_asked"), question))),
    ...published.map(question => entry(key(question), () => answered(question))),
  ];
}

/** @param {string} key @param {() => Element} makeNode @returns {[string, () => Element]} */
const entry = (key, makeNode) => [key, makeNode];

/** @param {number} item @param {() => Promise<void>} refill */
function askForm(item, refill) {
  const field = textField(say("talk.ask_seller"), { most: MOST, rows: 2, hint: say("talk.public_once") });
  return form({
    fields: [field], button: say("talk.ask"), waits: say("form.sends"), kind: "plain", context: () => ({ tried: "ask" }),
    act: async (/** @type {string} */ text) => {
      await send(`/items/${item}/questions`, { text });
      field.clear();
      await refill().catch(() => {});
      return say("talk.sent");
    },
  }).node;
}

/**
 * The part of an item's page with its questions, the call that reads them, and the call that takes the form away once
 * nobody may ask any more.
 * @param {Item} item
 */
export function talk(item) {
  const list = make("ul", { class: "talk" });
  const none = make("p", { class: "soft" });
  const heading = make("h2", { tabindex: "-1" }, say("talk.title"));
  const keep = makeKeeper(list);
  const after = async () => {
    await fill().catch(() => {});
    heading.focus();
  };
  async function fill() {
    const found = await questionsOf(item);
    const names = await namesOf([...found.published, ...found.waits].map(question => question.asker));
    const entries = entriesOf(found, names, after);
    keep(entries);
    put(none, entries.length ? "" : say("talk.none"));
  }
  const ask = askForm(item.item, fill);
  const update = (/** @type {Item} */ now) => {
    ask.hidden = !caller.isMember || caller.number === now.seller || stateOf(now) !== "open";
  };
  return { node: make("section", { class: "box" }, heading, list, none, ask), update, fill };
}
