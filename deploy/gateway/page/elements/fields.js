// @ts-check
// Fields of forms: a label, a hint, and a sentence where what was written can't be taken.
import { make, put } from "./dom.js";
import { say } from "../words/language.js";
import { MOST, cents, money } from "../words/money.js";

// Why a field can't be taken.
export class Mistake extends Error {}

let made = 0;

/** @typedef {HTMLInputElement | HTMLTextAreaElement | HTMLSelectElement} Control */

/** @template Value */
class Field {
  /**
   * @param {Content} label @param {Control} control @param {Content} hint
   * @param {(text: string) => Value} judge makes the value of what was written, or throws a Mistake
   */
  constructor(label, control, hint, judge) {
    made += 1;
    this.control = control;
    this.judge = judge;
    /** @type {Value | undefined} */
    this.value = undefined;
    control.id = `field-${made}`;
    this.hint = make("p", { class: "hint", id: `hint-${made}` }, hint || null);
    this.mistake = make("p", { class: "mistake", id: `mistake-${made}` });
    this.label = make("label", { for: control.id }, label);
    control.setAttribute("aria-describedby", `${this.mistake.id} ${this.hint.id}`);
    this.node = make("div", { class: "field" }, this.label, this.hint, control, this.mistake);
  }

  // Whether what is written can be taken. If not, the field says why.
  holds() {
    try {
      this.value = this.judge(this.control.value);
      this.say("");
      return true;
    } catch (mistake) {
      if (!(mistake instanceof Mistake)) {
        throw mistake;
      }
      this.say(mistake.message);
      return false;
    }
  }

  /** @param {string} sentence */
  say(sentence) {
    put(this.mistake, sentence);
    this.control.setAttribute("aria-invalid", String(sentence !== ""));
  }

  /** @param {string} value */
  write(value) {
    this.control.value = value;
    this.control.dispatchEvent(new Event("input"));
    this.say("");
  }

  clear() {
    this.write("");
  }
}

/**
 * A line to write in.
 * @param {Record<string, any>} attributes @param {string} [value]
 */
function makeInput(attributes, value = "") {
  const input = make("input", { type: "text", autocomplete: "off", ...attributes });
  input.value = value;
  return input;
}

/**
 * Several lines to write in.
 * @param {Record<string, any>} attributes @param {string} value
 */
function makeArea(attributes, value) {
  const area = make("textarea", attributes);
  area.value = value;
  return area;
}

/** @param {string} text */
const bytes = text => new TextEncoder().encode(text).length;

/**
 * The house takes no character that moves a carriage: a line's end is the mark that Unicode has for it, the others are
 * spaces.
 * @param {string} text
 */
const tidy = text => text.trim().replace(/\s*[\r\n]\s*/g, "\u2029").replace(/[\u0000-\u001f\u007f]/g, " ");

/** @param {string} text @param {number} least @param {number} most */
function judgeText(text, least, most) {
  const tidied = tidy(text);
  const length = bytes(tidied);
  if (length < least) {
    throw new Mistake(say("field.empty"));
  }
  if (length > most) {
    throw new Mistake(say("field.too_long", { count: length - most }));
  }
  return tidied;
}

/**
 * How much room is left in a text: the house counts bytes.
 * @param {string} text @param {number} most
 */
function roomIn(text, most) {
  const left = most - bytes(tidy(text));
  return left >= 0 ? say("field.room", { count: left }) : say("field.over", { count: -left });
}

/**
 * A text of so many bytes, which tells how many are left. One of several lines has rows.
 * @param {Content} label @param {{ hint?: Content, least?: number, most: number, rows?: number, value?: string }} words
 */
export function textField(label, { hint = "", least = 1, most, rows = 0, value = "" }) {
  const control = rows ? makeArea({ rows }, value) : makeInput({}, value);
  const field = new Field(label, control, hint, text => judgeText(text, least, most));
  const room = make("p", { class: "hint", id: `room-${control.id}` });
  const tell = () => put(room, roomIn(control.value, most));
  tell();
  control.addEventListener("input", tell);
  control.setAttribute("aria-describedby", `${control.getAttribute("aria-describedby")} ${room.id}`);
  field.node.append(room);
  return field;
}

/**
 * A line that is judged as it is.
 * @template Value
 * @param {Content} label @param {{ hint: Content, value: string, judge: (text: string) => Value }} words
 */
export const lineField = (label, { hint, value, judge }) => new Field(label, makeInput({}, value), hint, judge);

/**
 * Lines that are judged together. Empty ones don't count.
 * @template Value
 * @param {Content} label
 * @param {{ hint: Content, rows: number, value: string, judge: (lines: string[]) => Value }} words
 */
export function linesField(label, { hint, rows, value, judge }) {
  const linesOf = (/** @type {string} */ text) => text.split("\n").map(line => line.trim()).filter(line => line !== "");
  return new Field(label, makeArea({ rows, class: "amount" }, value), hint, text => judge(linesOf(text)));
}

/** @param {string} text */
function judgeCode(text) {
  if (!/^[A-Za-z0-9-]{1,20}$/.test(text.trim())) {
    throw new Mistake(say("field.no_code"));
  }
  return text.trim();
}

/** @param {Content} label @param {{ hint: Content, value: string }} words */
export const codeField = (label, { hint, value }) => new Field(label, makeInput({}, value), hint, judgeCode);

/**
 * @typedef {object} Amounts
 * @property {Content} [hint]
 * @property {() => number} [least]
 * @property {(least: number) => string} [tooLow] what is said of less
 * @property {() => number} [most]
 * @property {boolean} [isOptional]
 */

/**
 * The cents of an amount of at least so many, and at most so many. Where `isOptional` holds an empty field is null.
 * @param {Content} label @param {Amounts} amounts
 */
export function moneyField(label, { hint = "", least = () => 1, tooLow = money, most = () => MOST, isOptional = false }) {
  const judge = (/** @type {string} */ text) => {
    const amount = cents(text);
    if (amount === null) {
      throw new Mistake(say("field.no_amount"));
    }
    if (amount < least()) {
      throw new Mistake(tooLow(least()));
    }
    if (amount > most()) {
      throw new Mistake(say("field.too_much", { amount: money(most()) }));
    }
    return amount;
  };
  const control = makeInput({ inputmode: "decimal", class: "amount" });
  return new Field(label, control, hint, text => isOptional && !text.trim() ? null : judge(text));
}

/** @param {Content} label @param {{ hint?: Content, choices: [number, string][] }} words */
export function choiceField(label, { hint = "", choices }) {
  const control = make("select", {}, ...choices.map(([value, text]) => make("option", { value, dir: "auto" }, text)));
  return new Field(label, control, hint, Number);
}

/** @param {string} type @param {Content} label @param {string} value @param {Content} hint @param {string} sentence */
function dateOrTimeField(type, label, value, hint, sentence) {
  return new Field(label, makeInput({ type, autocomplete: null }, value), hint, text => {
    if (!text) {
      throw new Mistake(sentence);
    }
    return text;
  });
}

/** @param {Content} label @param {string} value @param {Content} [hint] */
export const dayField = (label, value, hint = "") => dateOrTimeField("date", label, value, hint, say("field.no_day"));

/** @param {Content} label @param {string} value @param {Content} [hint] */
export const timeField = (label, value, hint = "") => dateOrTimeField("time", label, value, hint, say("field.no_time"));
