// @ts-check
// The house itself: its counts and rules for everybody, and for who runs it categories and the public record.
import { read, send } from "../exchange/api.js";
import { caller } from "../exchange/caller.js";
import { make } from "../elements/dom.js";
import { makeRefill } from "../elements/place.js";
import { textField } from "../elements/fields.js";
import { save } from "../elements/files.js";
import { action, form } from "../elements/form.js";
import { categories } from "../exchange/known.js";
import { categoryLink } from "../items/browse.js";
import { dayAt, time, zoneName } from "../time/moments.js";
import { language, say } from "../words/language.js";
import { publicRecord } from "./record.js";
import { sums } from "../elements/table.js";
import { bandsPart } from "./bands.js";

// After so many seconds what is shown is read again.
const FRESH = 60;

/**
 * The rate is in ten-thousandths: 1000 is 10 %.
 * @param {House} page @returns {[string, Content][]}
 */
function factsOf({ members, items, categories: count, rate, clock }) {
  const { whole, percent } = language;
  return [
    [say("house.members"), whole.format(members)], [say("house.items"), whole.format(items)],
    [say("house.categories"), whole.format(count)], [say("house.fee"), percent.format(rate / 10_000)],
    [say("house.times"), zoneName()], [say("house.last_command"), clock ? time(clock) : say("house.none_yet")],
  ];
}

/** @param {() => Promise<void>} refill */
function categoryForm(refill) {
  const field = textField(say("house.category_name"), { most: 40 });
  return form({
    fields: [field], button: say("house.add"), waits: say("house.adds"), context: () => ({ tried: "category" }),
    act: async (/** @type {string} */ name) => {
      await send("/categories", { name });
      field.clear();
      await refill().catch(() => {});
      return say("house.category_added");
    },
  }).node;
}

function recordButton() {
  return action({
    button: say("house.save_record"), waits: say("house.reads_all"), kind: "plain", context: () => ({ isRead: true }),
    act: async () => {
      const { text, clock, isOfOneMoment } = await publicRecord();
      save(`record-${dayAt(clock)}.json`, "application/json", text);
      return say(isOfOneMoment ? "house.record_saved" : "house.record_of_two_moments");
    },
  }).node;
}

/** @param {Element} place @param {() => Promise<void>} refill */
const ofHouse = (place, refill) => [
  make("section", { class: "box" }, make("h2", {}, say("items.categories")), place, categoryForm(refill)),
  make("section", { class: "box" }, make("h2", {}, say("house.record")), make("p", { class: "soft" }, say("house.about_record")),
    recordButton())];

/** @param {Visit} visit @returns {Promise<Shown>} */
export async function house(visit) {
  const place = make("div");
  const categoriesPlace = make("div");
  const refill = makeRefill(place);
  const refillCategories = makeRefill(categoriesPlace);
  const bands = await bandsPart();
  const look = async () => {
    const [page, list] = await Promise.all([read("/house"), caller.isHouse ? categories() : []]);
    return { page, list };
  };
  const show = (/** @type {{ page: House, list: Category[] }} */ { page, list }) => {
    refill(page, () => [sums(factsOf(page))]);
    refillCategories(list, () => [make("ul", { class: "people" }, ...list.map(one => make("li", {}, categoryLink(one))))]);
  };
  await visit.follow(FRESH, look, show);
  const again = async () => show(await look());
  return { title: say("nav.house"), nodes: [place, ...(caller.isHouse ? ofHouse(categoriesPlace, again) : []), bands] };
}
