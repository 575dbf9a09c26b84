// @ts-check
// The button by which the house settles a sale.
import { read, send } from "../exchange/api.js";
import { caller } from "../exchange/caller.js";
import { namesOf } from "../exchange/known.js";
import { quote, titleOrNone } from "../elements/dom.js";
import { action } from "../elements/form.js";
import { tell } from "../elements/news.js";
import { isSure } from "../elements/question.js";
import { phrase, say } from "../words/language.js";
import { money } from "../words/money.js";
import { feeOf } from "./fee.js";

/**
 * A sale, with the names of its parties and what each gets.
 * @typedef {Item & { buyer: string, from: string, fee: number, net: number }} Sale
 */

/** @param {Item} item @returns {Promise<Sale>} */
async function saleOf(item) {
  const [names, { rate }] = await Promise.all([namesOf([item.seller, Number(item.leader)]), read("/house")]);
  return withParties(item, names, rate);
}

/** @template {Item} Kind @param {Kind} item @param {TextsByNumber} names @param {number} rate */
export function withParties(item, names, rate) {
  const fee = feeOf(item.price, rate);
  return { ...item, buyer: names.get(Number(item.leader)), from: names.get(item.seller), fee, net: item.price - fee };
}

/** @param {Sale} sale */
const isMeant = ({ title, price, buyer, net, from, fee }) => isSure({
  title: say("settle.sure"),
  text: phrase("settle.sure_text", { title: quote(titleOrNone(title)), price: money(price), buyer: quote(buyer), net: money(net),
    seller: quote(from), fee: money(fee) }),
  yes: say("settle.sure_yes"), no: say("settle.sure_no"),
});

/**
 * A button that settles the sale of an item, for the house; else nothing.
 * @param {Item} item @param {() => Promise<void>} after
 */
export function settleButton(item, after) {
  if (!caller.isHouse || item.state !== "sold") {
    return null;
  }
  return action({
    button: say("settle.button"), waits: say("settle.waits"), context: () => ({ tried: "settle" }),
    isMeant: async () => isMeant(await saleOf(item)), unless: say("settle.nothing"),
    act: async () => {
      const { price, fee, net } = await send(`/items/${item.item}/settle`);
      const sentence = say("settle.done", { price: money(price), fee: money(fee), net: money(net) });
      await after().catch(() => {});
      tell(sentence);
      return sentence;
    },
  }).node;
}
