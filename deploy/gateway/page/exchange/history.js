// @ts-check
// What is kept of each entry of the browser's history, for who comes back to it: how far down it was, what the page
// noted, and what was written in its fields. It is in the page's memory alone, and gone when that is loaded anew.

/**
 * What the page noted of itself, as how much of a list was shown.
 * @typedef {{ parts?: number, isWhole?: boolean }} Noted
 */
/** @typedef {HTMLInputElement | HTMLTextAreaElement | HTMLSelectElement} Control */

/** @type {Map<string, { scroll: number, noted: Noted }>} */
const entries = new Map();
/** @type {Map<string, Map<string, string>>} */
const drafts = new Map();

// The entry that the browser is at. A new one has nothing yet.
export function entry() {
  const key = history.state?.entry ?? crypto.randomUUID();
  const found = entries.get(key);
  if (found) {
    return found;
  }
  const fresh = { scroll: 0, noted: {} };
  entries.set(key, fresh);
  history.replaceState({ entry: key }, "");
  return fresh;
}

/** @param {Element} content @returns {Control[]} */
const fieldsOf = content => [...content.querySelectorAll("input, textarea, select")].map(field => /** @type {Control} */ (field));

/**
 * A field is known again by its label and by how many with the same label come before it.
 * @param {Element} content @returns {[string, Control][]}
 */
function fieldsByLabel(content) {
  const seen = new Map();
  return fieldsOf(content).map(field => {
    const label = field.labels?.[0]?.textContent ?? "";
    const place = seen.get(label) ?? 0;
    seen.set(label, place + 1);
    return [`${label}/${place}`, field];
  });
}

// What the fields have to begin with, which is no draft.
const begun = new WeakMap();

/** @param {Element} content */
export const noteFields = content => fieldsOf(content).forEach(field => begun.set(field, field.value));

/**
 * Keeps what was written, and not sent, by the address of the page.
 * @param {string} address @param {Element} content
 */
export function keepDrafts(address, content) {
  const isDraft = (/** @type {Control} */ field) => field.value !== (begun.get(field) ?? "") && !field.form?.dataset.isSent;
  const written = fieldsByLabel(content).filter(([, field]) => isDraft(field));
  drafts.set(address, new Map(written.map(([name, field]) => [name, field.value])));
}

/**
 * Puts back what was written, and tells the page of it as if it had been written now.
 * @param {string} address @param {Element} content
 */
export function putDrafts(address, content) {
  const kept = drafts.get(address) ?? new Map();
  for (const [name, field] of fieldsByLabel(content)) {
    const written = kept.get(name);
    if (written !== undefined) {
      field.value = written;
      field.dispatchEvent(new Event("input"));
    }
  }
}
