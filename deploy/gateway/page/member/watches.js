// @ts-check
// What the caller watches.
import { read } from "../exchange/api.js";
import { itemsUnder } from "../items/browse.js";
import { signOf } from "../items/cards.js";
import { inOrder } from "../exchange/shelf.js";
import { link, make } from "../elements/dom.js";
import { makeRefill } from "../elements/place.js";
import { bidsFor } from "../exchange/known.js";
import { say } from "../words/language.js";

// After so many seconds what is shown is read again.
const FRESH = 60;

const nothing = () => make("p", { class: "empty" }, say("watches.none"), " ", link("", say("items.look")));

/** @param {Visit} visit @returns {Promise<Shown>} */
export async function watches(visit) {
  const place = make("div");
  const refill = makeRefill(place);
  const look = async () => {
    /** @type {{ items: WholeItem[] }} */
    const { items } = await read("/me/watches");
    return { items, bids: await bidsFor(items) };
  };
  await visit.follow(FRESH, look, ({ items, bids }) => {
    const { open, over } = inOrder(items);
    refill(signOf([...open, ...over], bids), () => items.length
      ? [itemsUnder(say("items.open"), open, bids), itemsUnder(say("items.over"), over, bids)] : [nothing()]);
  });
  return { title: say("nav.watches"), nodes: [place] };
}
