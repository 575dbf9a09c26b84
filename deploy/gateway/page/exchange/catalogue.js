// @ts-check
// The catalogue that a job of the gateway writes each minute: the public items of the house as plain files, so that lists
// and searches cost the house nothing. Where it is missing or old, `catalogue` is null, and the lists of the house serve.
import { each } from "./api.js";
import { now, isKnown } from "../time/clock.js";

// A file of a list has so many items, or it is the last; one of all items is for so many numbers.
const PART = 200;
const CHUNK = 1000;
// The job has not run for so many seconds: then the house's own lists are truer.
const OLD = 600;

const BASE = `${location.origin}/catalogue`;

/** @param {string} name @param {AbortSignal} [signal] @returns {Promise<any>} */
async function file(name, signal) {
  try {
    const answer = await fetch(`${BASE}/${name}`, { signal });
    return answer.ok ? await answer.json() : null;
  } catch {
    return null;
  }
}

export class Catalogue {
  /** @param {{ moment: number, items: number, open: number }} about @param {AbortSignal} signal */
  constructor(about, signal) {
    this.moment = about.moment;
    this.count = about.items;
    this.open = about.open;
    this.signal = signal;
  }

  /**
   * The first items of a list, in so many parts, and whether there are more.
   * @param {string} name @param {number} parts @returns {Promise<{ items: Item[], isWhole: boolean }>}
   */
  async list(name, parts) {
    /** @type {Map<number, Item>} */
    const found = new Map();
    for (let part = 1; part <= parts; part += 1) {
      /** @type {Item[]} */
      const items = await file(`${name}/${part}.json`, this.signal) ?? [];
      items.forEach(item => found.set(item.item, item));
      if (items.length < PART) {
        return { items: [...found.values()], isWhole: true };
      }
    }
    return { items: [...found.values()], isWhole: false };
  }

  /**
   * All items, the oldest first.
   * @returns {Promise<{ items: Item[], isWhole: boolean }>}
   */
  async all() {
    const chunks = Array.from({ length: Math.ceil(this.count / CHUNK) }, (_, place) => place);
    const found = await each(chunks, chunk => file(`items/${chunk}.json`, this.signal));
    return { items: found.flatMap(items => items ?? []), isWhole: found.every(items => items !== null) };
  }
}

/**
 * The catalogue of now, or null.
 * @param {AbortSignal} signal @returns {Promise<Catalogue | null>}
 */
export async function catalogueOf(signal) {
  const about = await file("about.json", signal);
  const isFresh = about !== null && (!isKnown() || now() - about.moment < OLD);
  return isFresh ? new Catalogue(about, signal) : null;
}

/**
 * Letters without accents, in small ones: who looks for cafe finds Café.
 * @param {string} text
 */
const fold = text => text.normalize("NFD").replace(/\p{M}/gu, "").toLowerCase();

/**
 * Those items whose titles have all of some words.
 * @template {Item} Kind
 * @param {Kind[]} items @param {string} words @returns {Kind[]}
 */
export function findTitles(items, words) {
  const parts = fold(words).split(/\s+/).filter(part => part !== "");
  return items.filter(item => parts.every(part => fold(item.title).includes(part)));
}
