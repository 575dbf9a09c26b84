// @ts-check
// What was read once and is shown beside a number: names of members, titles of items, names of categories.
import { each, read, whole } from "./api.js";
import { caller } from "./caller.js";
import { nameOrNone, titleOrNone } from "../elements/dom.js";
import { say } from "../words/language.js";

// Texts that stay, by their numbers. Each is asked once. A read that failed is forgotten, and asked again.
class Texts {
  /** @param {(number: number) => Promise<string>} ask */
  constructor(ask) {
    this.ask = ask;
    /** @type {Map<number, Promise<string>>} */
    this.answers = new Map();
    /** @type {Map<number, string>} */
    this.found = new Map();
  }

  /** @param {number} number */
  get(number) {
    const before = this.answers.get(number);
    if (before) {
      return before;
    }
    const answer = this.ask(number);
    this.answers.set(number, answer);
    answer.then(text => this.found.set(number, text), () => this.answers.delete(number));
    return answer;
  }

  /**
   * Keeps a text that came with something else.
   * @param {number} number @param {string} text
   */
  keep(number, text) {
    this.answers.set(number, Promise.resolve(text));
    this.found.set(number, text);
  }
}

const names = new Texts(async number => nameOrNone((await read(`/members/${number}`)).name));

// A title stays too. Prices don't, so only the title is to be taken from here.
const titles = new Texts(async number => titleOrNone((await read(`/items/${number}`)).title));

/** @param {number} number */
export const nameOf = number => names.get(number);

/**
 * A name that was read before, or undefined.
 * @param {number} number
 */
export const nameAtHand = number => names.found.get(number);

/**
 * A member as it is now: its name stays, and how it was rated doesn't.
 * @param {number} number @returns {Promise<Member>}
 */
export async function memberNow(number) {
  const member = await read(`/members/${number}`);
  names.keep(number, nameOrNone(member.name));
  return member;
}

/** @param {number} member */
export const nameByNumber = member => say("page.member", { member: String(member) });

// Each is a read of its own. So of a long list that many are read, the greatest numbers, and the others are shown by
// their numbers alone.
const MOST = 200;

/**
 * @param {number[]} numbers @param {Texts} texts @param {(number: number) => string} otherwise @param {number} most
 * @returns {Promise<TextsByNumber>}
 */
async function textsOf(numbers, texts, otherwise, most) {
  const chosen = [...new Set(numbers)].sort((one, two) => two - one).slice(0, most);
  const answers = await each(chosen, number => texts.get(number));
  const known = new Map(chosen.map((number, place) => [number, answers[place]]));
  return { get: number => known.get(number) ?? otherwise(number) };
}

/** @param {number[]} numbers @param {number} [most] */
export const titlesOf = (numbers, most = MOST) => textsOf(numbers, titles, item => say("page.item", { item: String(item) }), most);

/** @param {number[]} numbers @param {number} [most] */
export const namesOf = (numbers, most = MOST) => textsOf(numbers, names, nameByNumber, most);

/**
 * Items as they are now.
 * @param {number[]} numbers @returns {Promise<WholeItem[]>}
 */
export const itemsOf = numbers => each(numbers, number => read(`/items/${number}`));

/** @returns {Promise<Category[]>} */
export const categories = async () => (await read("/categories")).categories;

/**
 * The reserve that the caller has sealed of an own item, or null.
 * @param {number} number @returns {Promise<number | null>}
 */
export async function reserveOf(number) {
  const { reserves } = await read(`/me/reserves/${number}`);
  return reserves.find((/** @type {{ item: number }} */ one) => one.item === number)?.reserve ?? null;
}

/**
 * The caller's bids by item, from an item on.
 * @param {number} [from] @returns {Promise<BidsByItem>}
 */
export async function bidsByItem(from = 1) {
  return new Map((await whole("/me/bids", "bids", from)).map(bid => [bid.item, bid]));
}

/**
 * The caller's bids for some items. The house has none.
 * @param {Item[]} items @returns {Promise<BidsByItem>}
 */
export async function bidsFor(items) {
  const first = items.reduce((least, { item }) => Math.min(least, item), Infinity);
  return caller.isMember && first < Infinity ? bidsByItem(first) : new Map();
}

/**
 * The caller's own bid for an item, or undefined: the list begins at the item.
 * @param {number} number @returns {Promise<Bid | undefined>}
 */
export async function ownBid(number) {
  const { bids } = await read(`/me/bids/${number}`);
  return bids.find((/** @type {Bid} */ bid) => bid.item === number);
}
