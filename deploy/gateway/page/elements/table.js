// @ts-check
// Tables, which a narrow window shows as one block for each row. The roles are given apart, since a table that is
// shown as blocks would lose them.
import { make } from "./dom.js";

// Columns are a title and a kind: amounts are on the right, and what a row is about comes first on a narrow window.
export const TEXT = "text";
export const AMOUNT = "number";
export const SUBJECT = "subject";

/** @typedef {[title: string, kind: string]} Column */

/**
 * Names with the value of each, in large letters.
 * @param {[name: string, value: Content][]} entries
 */
export const sums = entries => make("dl", { class: "sums" }, ...entries.map(([name, value]) =>
  make("div", {}, make("dt", {}, name), make("dd", {}, value))));

/**
 * A row has a node or a text for each column.
 * @param {string} caption @param {Column[]} columns @param {Content[][]} rows @param {Content[][]} [totals]
 */
export function table(caption, columns, rows, totals = []) {
  const head = columns.map(([title, kind]) => make("th", { scope: "col", role: "columnheader", class: kind }, title));
  const line = (/** @type {Content[]} */ cells) => make("tr", { role: "row" }, ...cells.map((cell, place) => {
    const [title, kind] = columns[place];
    return make("td", { role: "cell", class: kind, "data-title": title }, cell);
  }));
  return make("table", { role: "table" },
    make("caption", {}, caption),
    make("thead", { role: "rowgroup" }, make("tr", { role: "row" }, ...head)),
    make("tbody", { role: "rowgroup" }, ...rows.map(line)),
    totals.length ? make("tfoot", { role: "rowgroup" }, ...totals.map(line)) : null);
}
