// @ts-check
// The public record, which the interface tells in parts: as `auction replay --record` writes it, its keys in byte order.
import { each, isUnknown, read, whole } from "../exchange/api.js";
import { categories } from "../exchange/known.js";

/** @param {number} count */
const numbers = count => Array.from({ length: count }, (_, place) => place + 1);

/**
 * An order by some numbers.
 * @param {string[]} keys @returns {(one: any, two: any) => number}
 */
const by = (...keys) => (one, two) => keys.map(key => one[key] - two[key]).find(difference => difference !== 0) ?? 0;

/** @param {Category[]} list @returns {Promise<WholeItem[]>} */
async function itemsOf(list) {
  const found = await each(list, one => whole(`/categories/${one.category}/items`, "items"));
  return found.flat().sort(by("item"));
}

/** @param {Member[]} members */
async function feedbackTo(members) {
  const found = await each(members, one => whole(`/members/${one.member}/feedback`, "feedback"));
  return found.flat().sort(by("item", "from"));
}

/** @param {WholeItem[]} items */
async function questionsOn(items) {
  const found = await each(items, one => whole(`/items/${one.item}/questions`, "published"));
  return found.flat().sort(by("item", "asker", "number"));
}

// The band tables by their numbers from 1. How many there are shows where one is not there.
async function editions() {
  const found = [];
  for (let edition = 1; ; edition += 1) {
    try {
      found.push({ ...await read(`/bands/${edition}`), edition });
    } catch (refusal) {
      if (isUnknown(refusal)) {
        return found;
      }
      throw refusal;
    }
  }
}

// The text of the record, and whether no command came while it was read.
export async function publicRecord() {
  const before = await read("/house");
  const { bands } = await read("/bands");
  const list = await categories();
  /** @type {Member[]} */
  const people = await each(numbers(before.members), number => read(`/members/${number}`));
  const items = await itemsOf(list);
  const record = {
    bands, categories: list, clock: before.clock, editions: await editions(), feedback: await feedbackTo(people),
    items, members: people.map(({ member, name }) => ({ member, name })), questions: await questionsOn(items),
    rate: before.rate, zone: before.zone,
  };
  const isOfOneMoment = JSON.stringify(before) === JSON.stringify(await read("/house"));
  return { text: JSON.stringify(record), clock: before.clock, isOfOneMoment };
}
