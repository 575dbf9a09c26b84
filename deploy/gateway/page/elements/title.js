// @ts-check
// The title of the window, with a word before it that is seen among other windows.
import { isolate } from "./dom.js";
import { say } from "../words/language.js";

let title = "";
let mark = "";

function show() {
  document.title = say("page.window", { mark: mark === "" ? "" : `(${mark}) `, title: isolate(title) });
}

/** @param {string} text */
export function setTitle(text) {
  title = text;
  mark = "";
  show();
}

/**
 * Puts a word before the title, or none.
 * @param {string} word
 */
export function markTitle(word) {
  mark = word;
  show();
}
