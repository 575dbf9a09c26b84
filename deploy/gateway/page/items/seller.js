// @ts-check
// What a seller has open, as cards. One whose end comes is taken away.
import { inOrder } from "../exchange/shelf.js";
import { makeRefill } from "../elements/place.js";
import { cards, signOf } from "./cards.js";
import { itemsOfSeller, provenance } from "./lists.js";

// These cards don't say how the caller stands.
const NO_BIDS = new Map();

/**
 * Puts into a place what a seller has open. `choose` picks some of it, and `frame` is given the parts, none where nothing
 * is open.
 * @param {Visit} visit @param {number} seller @param {Element} place
 * @param {{ choose?: (open: Item[]) => Item[], frame: (parts: Content[]) => Content[] }} words
 */
export async function showOpenItems(visit, seller, place, { choose = open => open, frame }) {
  const list = await itemsOfSeller(visit, seller, 1);
  const refill = makeRefill(place);
  const show = () => {
    const open = choose(inOrder(list.items).open);
    refill(signOf(open, NO_BIDS), () => frame(open.length ? [provenance(list), cards(open, NO_BIDS)] : []));
  };
  show();
  visit.onEnd(show);
}
