// @ts-check
// Members: what each was rated, and for the house the list of all.
import { each, read, send, whole } from "../exchange/api.js";
import { link, make, memberLink, nameOrNone, quote } from "../elements/dom.js";
import { textField } from "../elements/fields.js";
import { action, form } from "../elements/form.js";
import { namesOf, titlesOf } from "../exchange/known.js";
import { countsInWords, ratingInWords } from "../items/rating.js";
import { showOpenItems } from "../items/seller.js";
import { phrase, say } from "../words/language.js";

const AT_ONCE = 50;

/** @param {Feedback[]} list @param {TextsByNumber} titles @param {TextsByNumber} names */
function feedbackList(list, titles, names) {
  const entries = list.map(one => make("li", {},
    make("p", {}, make("strong", {}, ratingInWords(one.rating)), one.text ? ": " : "", quote(one.text)),
    make("p", { class: "soft" }, phrase("member.for_item", { item: link(`item/${one.item}`, quote(titles.get(one.item))),
      name: memberLink(one.from, names.get(one.from)) }))));
  return entries.length ? make("ul", { class: "talk" }, ...entries) : make("p", { class: "soft" }, say("member.unrated"));
}

/** @param {Visit} visit @param {number} number */
async function onOffer(visit, number) {
  const place = make("div");
  const heading = make("h2", {}, say("member.open_items"));
  const nothing = make("p", { class: "soft" }, say("member.offers_nothing"));
  await showOpenItems(visit, number, place, {
    frame: parts => [make("section", {}, heading, ...parts.length ? parts : [nothing])],
  });
  return place;
}

/** @param {Visit} visit @param {string} number @returns {Promise<Shown>} */
export async function member(visit, number) {
  /** @type {[Member, Feedback[], Element]} */
  const [one, list, offer] = await Promise.all([read(`/members/${number}`),
    whole(`/members/${number}/feedback`, "feedback"), onOffer(visit, Number(number))]);
  const [titles, names] = await Promise.all([titlesOf(list.map(feedback => feedback.item)),
    namesOf(list.map(feedback => feedback.from))]);
  return { title: nameOrNone(one.name), nodes: [
    make("p", {}, say("member.rated", { member: String(one.member), counts: countsInWords(one) })),
    make("section", { class: "box" }, make("h2", {}, say("member.ratings")), feedbackList(list, titles, names)), offer] };
}

/** @param {Member} one */
const entryOf = one => make("li", {}, memberLink(one.member, nameOrNone(one.name)),
  make("span", { class: "soft" }, ` ${say("member.in_list", { member: String(one.member), counts: countsInWords(one) })}`));

// The list of all members, fifty more at each call. The house tells none, so each is read by its number.
function memberList() {
  const place = make("ul", { class: "people" });
  let known = 0;
  const more = async () => {
    const { members: count } = await read("/house");
    const numbers = Array.from({ length: Math.min(AT_ONCE, count - known) }, (_, place) => known + 1 + place);
    const found = await each(numbers, number => read(`/members/${number}`));
    known += found.length;
    place.append(...found.map(entryOf));
    return known < count;
  };
  return { place, more };
}

/** @param {() => Promise<boolean>} more */
function registerForm(more) {
  const field = textField(say("members.name"), { most: 40, hint: say("members.name_hint") });
  return form({
    fields: [field], button: say("members.register"), waits: say("members.registers"), context: () => ({ tried: "register" }),
    act: async (/** @type {string} */ name) => {
      const { member: number } = await send("/members", { name });
      field.clear();
      await more().catch(() => {});
      return say("members.registered", { member: String(number) });
    },
  }).node;
}

/** @returns {Promise<Shown>} */
export async function members() {
  const { place, more } = memberList();
  const isMore = await more();
  const parts = action({
    button: say("members.more"), waits: say("form.reads"), kind: "plain",
    act: async () => {
      parts.button.hidden = !await more();
    },
  });
  parts.button.hidden = !isMore;
  const about = make("p", { class: "soft" }, say("members.sign_in"));
  return { title: say("nav.members"), nodes: [
    make("section", { class: "box" }, make("h2", {}, say("members.all")), place, parts.node),
    make("section", { class: "box narrow" }, make("h2", {}, say("members.register_title")), about, registerForm(more))] };
}
