// @ts-check
// What is done on the page of an item that is sold: it is paid, settled and rated.
import { caller } from "../exchange/caller.js";
import { whatNow } from "../exchange/city.js";
import { make, replace } from "../elements/dom.js";
import { settleButton } from "../office/settle.js";
import { ratingPart } from "./rating.js";
import { isSold } from "./standing.js";

/**
 * What the two parties and the house have to do once an item is sold. Where a read fails it is made again.
 * @param {() => Promise<void>} refresh
 */
export function salePart(refresh) {
  const toSettle = make("div");
  const toPay = make("div");
  const toRate = make("div");
  let state = "";
  let isAsked = false;
  const rate = async (/** @type {Item} */ item) => {
    isAsked = true;
    await ratingPart(item).then(node => replace(toRate, node), () => {
      isAsked = false;
    });
  };
  const update = (/** @type {Item} */ item) => {
    if (isSold(item) && !isAsked) {
      rate(item);
    }
    if (state !== item.state) {
      state = item.state;
      replace(toSettle, settleButton(item, refresh));
      replace(toPay, isSold(item) && item.leader === caller.number ? whatNow(state === "settled") : null);
    }
  };
  return { node: make("div", {}, toSettle, toPay, toRate), update };
}
