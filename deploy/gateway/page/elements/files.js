// @ts-check
// Files that the page makes, for the browser to save.
import { make } from "./dom.js";

/** @param {string} name @param {string} type @param {string} text */
export function save(name, type, text) {
  const address = URL.createObjectURL(new Blob([text], { type }));
  make("a", { href: address, download: name }).click();
  // The browser has to have begun before the address goes.
  setTimeout(() => URL.revokeObjectURL(address), 60_000);
}

// What a spreadsheet would take for a formula is a text to it behind an apostrophe.
const FORMULA = /^\s*[=+\-@\t\r]/;
// An amount with a sign before it is no formula.
const AMOUNT = /^-?\d+(\.\d+)?$/;

/** @param {string | number | null} value */
function cell(value) {
  const text = String(value);
  const guarded = FORMULA.test(text) && !AMOUNT.test(text) ? `'${text}` : text;
  return /[",\n\r]/.test(guarded) ? `"${guarded.replaceAll('"', '""')}"` : guarded;
}

/**
 * Rows as RFC 4180 has them, with the line ends of the program's own files.
 * @param {(string | number | null)[][]} rows
 */
export const csv = rows => rows.map(row => `${row.map(cell).join(",")}\n`).join("");
