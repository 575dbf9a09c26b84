// @ts-check
// A place on a page whose content comes anew.
import { replace } from "./dom.js";

/**
 * Puts nodes into an element, where the value that they show is another than the last time. The keyboard stays at the
 * link that has it.
 * @param {Element} element @returns {(value: unknown, nodes: () => Content[]) => void}
 */
export function makeRefill(element) {
  /** @type {string | null} */
  let shown = null;
  return (value, nodes) => {
    const sign = JSON.stringify(value);
    if (sign === shown) {
      return;
    }
    shown = sign;
    const active = document.activeElement;
    const address = active && element.contains(active) ? active.getAttribute("href") : null;
    replace(element, ...nodes());
    if (address !== null) {
      [...element.querySelectorAll("a")].find(link => link.getAttribute("href") === address)?.focus();
    }
  };
}

/**
 * Entries of a list by key: one that is there stays as it is, with what is written in its form.
 * @param {Element} list @returns {(entries: [key: string, make: () => Element][]) => void}
 */
export function makeKeeper(list) {
  /** @type {Map<string, Element>} */
  let known = new Map();
  return entries => {
    const next = new Map(entries.map(([key, make]) => [key, known.get(key) ?? make()]));
    known.forEach((node, key) => next.has(key) || node.remove());
    [...next.values()].forEach((node, place) => {
      if (list.children[place] !== node) {
        list.insertBefore(node, list.children[place] ?? null);
      }
    });
    known = next;
  };
}
