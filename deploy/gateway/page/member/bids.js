// @ts-check
// What the caller has bid for, with titles and ends, which the list of bids lacks.
import { itemLink, link, make } from "../elements/dom.js";
import { makeRefill } from "../elements/place.js";
import { action } from "../elements/form.js";
import { bidsByItem, itemsOf } from "../exchange/known.js";
import { say } from "../words/language.js";
import { money } from "../words/money.js";
import { inOrder } from "../exchange/shelf.js";
import { endInShort, signOf } from "../items/cards.js";
import { badge, standingInShort } from "../items/standing.js";
import { AMOUNT, SUBJECT, TEXT, table } from "../elements/table.js";

// So many are read at first.
const MOST = 100;
// After so many seconds what is shown is read again.
const FRESH = 60;

/** @returns {import("../elements/table.js").Column[]} */
const columns = () => [[say("column.item"), SUBJECT], [say("column.price"), AMOUNT], [say("column.my_maximum"), AMOUNT],
  [say("column.standing"), TEXT], [say("column.end"), TEXT]];

const nothing = () => make("p", { class: "empty" }, say("bids.none"), " ", link("", say("items.look")));

/** @param {WholeItem} item @param {Bid | undefined} bid @returns {Content[]} */
const row = (item, bid) => [itemLink(item), money(item.price), bid ? money(bid.maximum) : "",
  standingInShort(item, bid) ?? badge(item), endInShort(item)];

/** @param {string} title @param {WholeItem[]} items @param {BidsByItem} bids */
const part = (title, items, bids) => items.length
  ? table(title, columns(), items.map(item => row(item, bids.get(item.item)))) : null;

/**
 * Open ones first, and then those that were listed last.
 * @param {Iterable<Bid>} bids
 */
function openFirst(bids) {
  const isOpen = (/** @type {Bid} */ bid) => Number(bid.state === "open");
  return [...bids].sort((one, two) => isOpen(two) - isOpen(one) || two.item - one.item).map(bid => bid.item);
}

/**
 * Each item is a read of its own, so older ones are read when they are asked for.
 * @param {Visit} visit @param {number} count @param {() => Promise<void>} again
 */
function olderButton(visit, count, again) {
  const parts = action({
    button: say("bids.older", { count }), waits: say("form.reads"), kind: "plain",
    act: async () => {
      visit.kept.isWhole = true;
      await again();
      parts.button.hidden = true;
      return say("bids.all_here");
    },
  });
  return parts.node;
}

/** @param {Visit} visit @returns {Promise<Shown>} */
export async function bids(visit) {
  const place = make("div");
  const refill = makeRefill(place);
  /** @type {Map<number, WholeItem>} */
  const known = new Map();
  const look = async () => {
    const own = await bidsByItem();
    const numbers = openFirst(own.values());
    const most = visit.kept.isWhole ? numbers : numbers.slice(0, MOST);
    // What is over stays as it is.
    const changing = most.filter(number => (known.get(number)?.state ?? "open") === "open");
    (await itemsOf(changing)).forEach(item => known.set(item.item, item));
    return { own, items: most.flatMap(number => known.get(number) ?? []), older: numbers.length - most.length };
  };
  const show = (/** @type {{ own: BidsByItem, items: WholeItem[] }} */ { own, items }) => {
    const { open, over } = inOrder(items);
    refill(signOf([...open, ...over], own), () => items.length
      ? [part(say("items.open"), open, own), part(say("items.over"), over, own)] : [nothing()]);
  };
  let older = 0;
  await visit.follow(FRESH, look, found => {
    older = found.older;
    show(found);
  });
  const more = older ? olderButton(visit, older, async () => show(await look())) : null;
  return { title: say("nav.bids"), nodes: [place, more] };
}
