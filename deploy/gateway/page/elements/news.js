// @ts-check
// What a screen reader tells, and a strip under the header shows, without being asked: a price that changed.
import { part, put } from "./dom.js";

const SHOWN = 12_000;

const place = part("news");
/** @type {ReturnType<typeof setTimeout> | undefined} */
let timer;

/**
 * Tells a sentence. An empty one takes away what was told, since it is true no more.
 * @param {string} text
 */
export function tell(text) {
  clearTimeout(timer);
  put(place, text);
  timer = setTimeout(() => put(place, ""), SHOWN);
}
