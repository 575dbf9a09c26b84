// @ts-check
// What the caller has listed: what is open, what is sold, and what was not sold, which can be listed again.
import { caller } from "../exchange/caller.js";
import { inOrder } from "../exchange/shelf.js";
import { itemLink, link, make } from "../elements/dom.js";
import { action } from "../elements/form.js";
import { makeRefill } from "../elements/place.js";
import { AMOUNT, SUBJECT, TEXT, table } from "../elements/table.js";
import { endInShort } from "../items/cards.js";
import { itemsOfSeller, provenance } from "../items/lists.js";
import { bidsInWords, isSold, stateInWords, stateOf } from "../items/standing.js";
import { say } from "../words/language.js";
import { money } from "../words/money.js";

// After so many seconds what is shown is read again.
const FRESH = 60;

/** @returns {import("../elements/table.js").Column[]} */
const columns = () => [[say("column.item"), SUBJECT], [say("column.standing"), TEXT], [say("column.price"), AMOUNT],
  [say("column.bids"), TEXT], [say("column.end"), TEXT]];

/** @param {Item} item @returns {Content[]} */
const row = item => [itemLink(item), stateInWords(item), money(item.price), bidsInWords(item), endInShort(item)];

/** @param {string} title @param {Item[]} items */
const part = (title, items) => items.length ? table(title, columns(), items.map(row)) : null;

/** @param {Item[]} items */
function unsoldPart(items) {
  /** @type {import("../elements/table.js").Column[]} */
  const withAgain = [...columns(), [say("column.again"), TEXT]];
  const again = (/** @type {Item} */ item) => link(`sell/${item.item}`, say("listings.again"));
  return items.length ? table(say("state.unsold"), withAgain, items.map(item => [...row(item), again(item)])) : null;
}

const nothing = () => make("p", { class: "empty" }, say("listings.none"), " ", link("sell", say("listings.first")));

/** @param {import("../items/lists.js").List} list */
function partsOf(list) {
  const { open, over } = inOrder(list.items);
  const inState = (/** @type {State} */ state) => over.filter(item => item.state === state);
  return [provenance(list), part(say("items.open"), open), part(say("listings.to_be_closed"), inState("open")),
    part(say("state.sold"), over.filter(isSold)), unsoldPart(inState("unsold")), list.items.length ? null : nothing()];
}

/** @param {Visit} visit @returns {Promise<Shown>} */
export async function listings(visit) {
  const place = make("div");
  const refill = makeRefill(place);
  const look = () => itemsOfSeller(visit, caller.number, visit.kept.parts ?? 1);
  const show = (/** @type {import("../items/lists.js").List} */ list) => {
    more.button.hidden = list.isWhole;
    refill([list.moment, list.items.map(item => [item, stateOf(item)])], () => partsOf(list));
  };
  const more = action({
    button: say("listings.older"), waits: say("form.reads"), kind: "plain",
    act: async () => {
      visit.kept.parts = (visit.kept.parts ?? 1) + 1;
      show(await look());
    },
  });
  await visit.follow(FRESH, look, show);
  return { title: say("nav.listings"), nodes: [make("p", {}, link("sell", say("listings.sell"))), place, more.node] };
}
