// @ts-check
// The items of a category. A list begins with the oldest, and what is open is mostly young: so the numbers that the
// house gave last are read first, and older ones when they are asked for.
import { lists } from "./api.js";
import { hasEnded } from "../time/moments.js";

// Over how many numbers the first look goes. Each further one goes over twice as many.
const FIRST = 200;

export class Shelf {
  /** @param {number} category */
  constructor(category) {
    this.category = category;
    this.before = 1;
    this.width = FIRST;
    /** @type {WholeItem[]} */
    this.items = [];
  }

  /**
   * Reads so many of the youngest items, or all, in a house that has so many. What was read before stays until then.
   * @param {number} count @param {number} enough
   */
  async readAnew(count, enough) {
    const fresh = new Shelf(this.category);
    fresh.before = count + 1;
    await fresh.readOlder(enough);
    Object.assign(this, fresh);
  }

  get isWhole() {
    return this.before <= 1;
  }

  /**
   * Reads older items, until there are so many more or no others.
   * @param {number} enough
   */
  async readOlder(enough) {
    const wanted = this.items.length + enough;
    while (!this.isWhole && this.items.length < wanted) {
      const from = Math.max(1, this.before - this.width);
      this.items.push(...await readBetween(this.category, from, this.before));
      this.before = from;
      this.width *= 2;
    }
  }
}

/** @param {number} category @param {number} from @param {number} before */
async function readBetween(category, from, before) {
  /** @type {WholeItem[]} */
  const found = [];
  for await (const list of lists(`/categories/${category}/items`, "items", from)) {
    found.push(...list.filter(item => item.item < before));
    if (list.some(item => item.item >= before)) {
      break;
    }
  }
  return found;
}

/** @param {Item} item */
const isOpen = item => item.state === "open" && !hasEnded(item);

/** @param {Item} item */
const endOf = item => item.closed ?? item.end;

/**
 * Open ones first, and of them what ends first. Then the others, and of them what ended last.
 * @template {Item} Kind
 * @param {Kind[]} items
 */
export function inOrder(items) {
  const open = items.filter(isOpen).sort((one, two) => one.end - two.end || one.item - two.item);
  const over = items.filter(item => !isOpen(item)).sort((one, two) => endOf(two) - endOf(one) || two.item - one.item);
  return { open, over };
}
