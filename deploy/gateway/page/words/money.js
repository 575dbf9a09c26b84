// @ts-check
// Amounts: the interface has whole cents, people write and read them with two decimals.
import { language } from "./language.js";

export const MOST = 1_000_000_000;

// The name by which the city's money goes, after each amount; none, where the city gives none.
export let currency = "";

/** @param {string} name */
export function setCurrency(name) {
  currency = name;
}

/**
 * 123450 is shown as 1,234.50 in English.
 * @param {number} cents
 */
export const amount = cents => language.amount.format(cents / 100);

/**
 * The same with the name of the money.
 * @param {number} cents
 */
export const money = cents => currency === "" ? amount(cents) : `${amount(cents)}\u00a0${currency}`;

/**
 * As a field has it: 1234.50 in English.
 * @param {number} cents
 */
export const writtenMoney = cents => language.writtenAmount.format(cents / 100);

/**
 * As a program reads it, in any language: 1234.50.
 * @param {number} cents
 */
export const plain = cents => `${Math.floor(cents / 100)}.${String(cents % 100).padStart(2, "0")}`;

const PLAIN = /^(\d{1,8})(?:[.,](\d{1,2}))?$/;
const SPACED = /^(\d{1,3}(?:[ \u00a0\u202f]\d{3})+)(?:[.,](\d{1,2}))?$/;
const GROUPED = [/^(\d{1,3}(?:,\d{3})+)\.(\d{1,2})$/, /^(\d{1,3}(?:\.\d{3})+),(\d{1,2})$/];

/**
 * What somebody wrote, without the name of the money after it or before it.
 * @param {string} text
 */
function withoutCurrency(text) {
  const written = text.trim();
  if (written.endsWith(currency)) {
    return written.slice(0, written.length - currency.length).trim();
  }
  return written.startsWith(currency) ? written.slice(currency.length).trim() : written;
}

/**
 * The cents that somebody wrote, or null. 1,234 and 1.234 may mean two amounts, so they are none. A space parts threes
 * alone: 12 50 may be a slip for 12.50.
 * @param {string} text @returns {number | null}
 */
export function cents(text) {
  const written = withoutCurrency(text);
  const found = [PLAIN, SPACED, ...GROUPED].map(form => form.exec(written)).find(match => match !== null);
  if (!found) {
    return null;
  }
  return Number(found[1].replace(/\D/g, "")) * 100 + Number((found[2] ?? "").padEnd(2, "0"));
}
