// @ts-check
// What waits for the caller's answer, and what the caller asked.
import { read, whole } from "../exchange/api.js";
import { link, make, put, quote } from "../elements/dom.js";
import { makeKeeper, makeRefill } from "../elements/place.js";
import { namesOf, titlesOf } from "../exchange/known.js";
import { exchangeEntry, waitingEntry } from "../items/talk.js";
import { phrase, say } from "../words/language.js";

// The house tells the first fifty that wait.
const MOST = 50;
// After so many seconds what is shown is read again.
const FRESH = 60;

/** @param {Question} question @param {TextsByNumber} titles */
const on = (question, titles) => link(`item/${question.item}`, quote(titles.get(question.item)));

async function readWaiting() {
  /** @type {{ questions: Question[] }} */
  const { questions } = await read("/me/waiting");
  const [titles, names] = await Promise.all([titlesOf(questions.map(one => one.item)),
    namesOf(questions.map(one => one.asker))]);
  return { questions, titles, names };
}

// The list of what waits, and the call that reads it anew. A form in which something is written stays.
function waitingPart() {
  const list = make("ul", { class: "talk" });
  const note = make("p", { class: "soft" });
  const heading = make("h2", { tabindex: "-1" }, say("questions.waiting"));
  const keep = makeKeeper(list);
  const after = async () => {
    await fill().catch(() => {});
    heading.focus();
  };
  async function fill() {
    const { questions, titles, names } = await readWaiting();
    keep(questions.map(one => [`${one.item}/${one.asker}/${one.number}`, () => {
      const name = names.get(one.asker);
      return waitingEntry(phrase("questions.asks_about", { name: quote(name), item: on(one, titles) }), one, name, after);
    }]));
    put(note, noteOf(questions.length));
  }
  return { fill, node: make("section", { class: "box" }, heading, list, note) };
}

/** @param {number} count */
function noteOf(count) {
  if (count === 0) {
    return say("questions.nobody_waits");
  }
  return count === MOST ? say("questions.more_may_wait") : "";
}

async function readAsked() {
  /** @type {Question[]} */
  const own = await whole("/me/questions", "asked");
  return { own, titles: await titlesOf(own.map(one => one.item)) };
}

/** @param {Question} one @param {TextsByNumber} titles */
const askedEntry = (one, titles) => exchangeEntry(phrase("questions.you_asked_about", { item: on(one, titles) }), one);

const nothing = () => make("p", { class: "soft" }, say("questions.none"));

/** @param {Visit} visit @returns {Promise<Shown>} */
export async function questions(visit) {
  const waits = waitingPart();
  const place = make("div");
  const refill = makeRefill(place);
  await visit.follow(FRESH, async () => {
    const [found] = await Promise.all([readAsked(), waits.fill()]);
    return found;
  }, ({ own, titles }) => refill(own, () => [own.length
    ? make("ul", { class: "talk" }, ...own.map(one => askedEntry(one, titles))) : nothing()]));
  return { title: say("nav.questions"), nodes: [waits.node,
    make("section", { class: "box" }, make("h2", {}, say("questions.asked")), place)] };
}
