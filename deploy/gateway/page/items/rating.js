// @ts-check
// The rating of a sale, by its two parties.
import { read, send } from "../exchange/api.js";
import { caller } from "../exchange/caller.js";
import { make, replace, quote } from "../elements/dom.js";
import { choiceField, textField } from "../elements/fields.js";
import { form } from "../elements/form.js";
import { nameOf } from "../exchange/known.js";
import { phrase, say } from "../words/language.js";
import { isSold } from "./standing.js";

/** @type {[number, string][]} */
const RATINGS = [[1, "rating.good"], [0, "rating.neither"], [-1, "rating.bad"]];

/** @param {number} rating */
export const ratingInWords = rating => say(RATINGS.find(([value]) => value === rating)?.[1] ?? "rating.neither");

/**
 * How often a member was rated with each.
 * @param {Member} one
 */
export const countsInWords = ({ plus, zero, minus }) => say("member.counts", { plus, zero, minus });

/**
 * What the caller gave to the other party for this item: the list begins at the item.
 * @param {number} item @param {number} other @returns {Promise<Feedback | undefined>}
 */
async function readGiven(item, other) {
  const { feedback } = await read(`/members/${other}/feedback/${item}`);
  return feedback.find((/** @type {Feedback} */ one) => one.item === item && one.from === caller.number);
}

/** @param {{ rating: number, text: string }} feedback @param {string} name */
const thanks = (feedback, name) => make("p", {}, phrase("rating.given",
  { name: quote(name), rating: ratingInWords(feedback.rating), text: quote(feedback.text) }));

/** @param {number} item @param {(feedback: { rating: number, text: string }) => void} after */
function rateForm(item, after) {
  const choice = choiceField(say("rating.choice"), { choices: RATINGS.map(([value, key]) => [value, say(key)]) });
  const text = textField(say("rating.text"), { least: 0, most: 200, hint: say("rating.hint") });
  return form({
    fields: [choice, text], button: say("rating.button"), waits: say("form.sends"), context: () => ({ tried: "rate" }),
    act: async (/** @type {number} */ rating, /** @type {string} */ words) => {
      await send(`/items/${item}/feedback`, { rating, text: words });
      after({ rating, text: words });
    },
  }).node;
}

/**
 * The part of an item's page in which a party rates the other, or nothing for anybody else.
 * @param {Item} item
 */
export async function ratingPart(item) {
  if (!isSold(item) || !caller.isMember || ![item.seller, item.leader].includes(caller.number)) {
    return null;
  }
  const other = caller.number === item.seller ? Number(item.leader) : item.seller;
  const [name, feedback] = await Promise.all([nameOf(other), readGiven(item.item, other)]);
  const place = make("div");
  replace(place, feedback ? thanks(feedback, name) : rateForm(item.item, one => replace(place, thanks(one, name))));
  return make("section", {}, make("h2", {}, phrase("rating.title", { name: quote(name) })), place);
}
