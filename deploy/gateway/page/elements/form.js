// @ts-check
// Forms and buttons that send a command: they wait for its answer, and say what came of it.
import { Refusal } from "../exchange/api.js";
import { make, put } from "./dom.js";
import { say } from "../words/language.js";
import { sentence } from "../words/refusals.js";

// After so many milliseconds somebody who waits sees that nothing is lost.
const SLOW = 4000;

/**
 * What came of some work: a sentence on what was done, or one with a colour where that is not what was hoped for, or not
 * all of it.
 * @typedef {string | { sentence: string, colour: "refused" | "short" } | void} Done
 */

/**
 * What a button does: a second question where there is one, and then the work.
 * @typedef {object} Deed
 * @property {string} waits what the button says meanwhile
 * @property {() => Tried} [context] what a refusal's sentence goes by
 * @property {(...values: any[]) => boolean | Promise<boolean>} [isMeant]
 * @property {string} [unless] what is said after a no
 * @property {(...values: any[]) => Done | Promise<Done>} act
 */

/** @param {HTMLElement} button */
const isWaiting = button => button.getAttribute("aria-disabled") === "true";

/**
 * Does some work once at a time. Meanwhile its button says that it waits, and pressing it again does nothing. It stays
 * where the keyboard is, which a disabled one would not.
 * @param {HTMLElement} button @param {string} waits @param {HTMLElement} outcome @param {() => Promise<void>} work
 */
async function whileWaiting(button, waits, outcome, work) {
  const before = button.textContent ?? "";
  const slow = setTimeout(() => put(outcome, say("form.still")), SLOW);
  button.setAttribute("aria-disabled", "true");
  put(button, waits);
  put(outcome, "");
  try {
    await work();
  } finally {
    clearTimeout(slow);
    button.removeAttribute("aria-disabled");
    put(button, button.dataset.label ?? before);
  }
}

/**
 * Says what came of some work, or why it was refused. A fault of the page goes to the console too.
 * @param {HTMLElement} outcome @param {() => Tried} context @param {() => Promise<Done>} work
 */
async function sayOutcome(outcome, context, work) {
  try {
    const done = (await work()) ?? "";
    const { sentence: words, colour } = typeof done === "string" ? { sentence: done, colour: "" } : done;
    outcome.className = `outcome ${colour}`;
    put(outcome, words);
  } catch (error) {
    outcome.className = "outcome refused";
    put(outcome, error instanceof Refusal ? sentence(error.answer, context()) : say("form.fault"));
    if (!(error instanceof Refusal)) {
      console.error(error);
    }
  }
}

const makeOutcome = () => make("p", { class: "outcome", role: "status" });

/**
 * Takes away what came of the last work, which may be true no more. Who waits for an answer goes on waiting.
 * @param {HTMLElement} button @param {HTMLElement} outcome
 */
const makeForget = (button, outcome) => () => {
  if (!isWaiting(button)) {
    put(outcome, "");
  }
};

/**
 * Sets what a button says when it doesn't wait.
 * @param {HTMLElement} button @param {string} text
 */
export function label(button, text) {
  button.dataset.label = text;
  if (!isWaiting(button)) {
    put(button, text);
  }
}

// The buttons whose second question is open.
const asking = new WeakSet();

/** @param {HTMLElement} button @param {HTMLElement} outcome @param {Deed} deed @param {any[]} values */
async function press(button, outcome, { waits, context = () => ({}), isMeant = () => true, unless = "", act }, values) {
  if (isWaiting(button) || asking.has(button)) {
    return;
  }
  asking.add(button);
  let isSure = false;
  await sayOutcome(outcome, () => ({ ...context(), isRead: true }), async () => {
    isSure = await isMeant(...values);
    return isSure ? "" : unless;
  });
  asking.delete(button);
  if (isSure) {
    await whileWaiting(button, waits, outcome, () => sayOutcome(outcome, context, async () => act(...values)));
  }
}

/**
 * A field, as far as a form knows it.
 * @typedef {{ node: Node, control: HTMLElement, value?: unknown, holds: () => boolean }} AnyField
 */

/**
 * A form of fields. `act` is given their values.
 * @param {{ fields: AnyField[], button: string, kind?: string } & Deed} parts
 */
export function form({ fields, button: text, kind = "", ...deed }) {
  const outcome = makeOutcome();
  const button = make("button", { type: "submit", class: kind }, text);
  const submit = (/** @type {Event} */ event) => {
    event.preventDefault();
    const wrong = fields.filter(field => !field.holds());
    if (wrong.length) {
      put(outcome, "");
      wrong[0].control.focus();
      return;
    }
    press(button, outcome, { ...deed, act: actOnce }, fields.map(field => field.value));
  };
  // What was sent is no draft any more.
  const actOnce = async (/** @type {any[]} */ ...values) => {
    const done = await deed.act(...values);
    node.dataset.isSent = "true";
    return done;
  };
  const write = () => {
    delete node.dataset.isSent;
  };
  const node = make("form", { novalidate: true, submit, input: write }, ...fields.map(field => field.node), button, outcome);
  return { node, button, forget: makeForget(button, outcome) };
}

/**
 * A button that acts by itself.
 * @param {{ button: string, kind?: string } & Deed} parts
 */
export function action({ button: text, kind = "", ...deed }) {
  const outcome = makeOutcome();
  const click = () => press(button, outcome, deed, []);
  const button = make("button", { type: "button", class: kind, click }, text);
  return { node: make("div", { class: "action" }, button, outcome), button, forget: makeForget(button, outcome) };
}
