// @ts-check
// The page: who is signed in, which part of it is shown, and the clock that goes on.
import { city } from "./ahead.js";
import { Refusal, read, readUntil } from "./exchange/api.js";
import { atTheFoot, putWords } from "./exchange/city.js";
import { category, front, search } from "./items/browse.js";
import { caller, findOut } from "./exchange/caller.js";
import { ahead, isKnown } from "./time/clock.js";
import { entry, keepDrafts, noteFields, putDrafts } from "./exchange/history.js";
import { nameByNumber, nameOf } from "./exchange/known.js";
import { isolate, link, make, part, put, replace, quote } from "./elements/dom.js";
import { item } from "./items/item.js";
import { duration, setZone, tick, zoneInWords } from "./time/moments.js";
import { tell } from "./elements/news.js";
import { markTitle, setTitle } from "./elements/title.js";
import { Visit } from "./exchange/visit.js";
import { watchWhileHidden } from "./member/outbid.js";
import { countWaiting } from "./member/waiting.js";
import { language, say } from "./words/language.js";
import { sentence } from "./words/refusals.js";

/**
 * Makes a part of the page, by the further words of its address.
 * @typedef {(visit: Visit, ...words: string[]) => Promise<Shown>} Part
 */

/**
 * Each part of the page by the first word after #/. Most come for items, so the modules of the other parts are read after
 * those.
 * @type {Record<string, () => Promise<any>>}
 */
const PARTS = {
  "": async () => front,
  category: async () => category,
  search: async () => search,
  item: async () => item,
  bids: async () => (await import("./member/bids.js")).bids,
  won: async () => (await import("./member/won.js")).won,
  watches: async () => (await import("./member/watches.js")).watches,
  listings: async () => (await import("./member/listings.js")).listings,
  questions: async () => (await import("./member/questions.js")).questions,
  sell: async () => (await import("./member/sell.js")).sell,
  statement: async () => (await import("./member/statement.js")).statement,
  notices: async () => (await import("./member/notices.js")).notices,
  house: async () => (await import("./office/house.js")).house,
  member: async () => (await import("./office/members.js")).member,
  members: async () => (await import("./office/members.js")).members,
  settling: async () => (await import("./office/settling.js")).settling,
  accounts: async () => (await import("./office/accounts.js")).accounts,
};

/**
 * What makes a part. A name that is none of ours leads to the items, also one that every object has.
 * @param {string} name @returns {Promise<Part>}
 */
async function partOf(name) {
  try {
    return await (Object.hasOwn(PARTS, name) ? PARTS[name] : PARTS[""])();
  } catch {
    throw new Refusal({ error: "silence" });
  }
}

// Reads all parts, once the first one is there. Where that fails each is read when one goes there.
const readParts = () => Object.keys(PARTS).forEach(name => partOf(name).catch(() => {}));

const OF_MEMBERS = ["bids", "won", "watches", "listings", "questions", "sell", "statement", "notices"];
const OF_HOUSE = ["members", "settling", "accounts"];
// The parts that lie below the items, and have no entry.
const BELOW_ITEMS = ["category", "item", "search"];

// How often countdowns are put anew, in milliseconds, and after how many seconds questions that wait are counted again.
const TICK = 500;
const WAITING = 60;
// How often the foot is put anew, and how often it is looked whether the clock is to be heard of again.
const FOOT = 10_000;
const HEAR = 2_000;
// After so many milliseconds the other parts of the page are read.
const AHEAD = 2000;

const content = part("content");
let visit = new Visit();

/**
 * Whether an entry of the navigation leads to the part that is shown, or to one above it.
 * @param {string} path @param {string} current
 */
function currentOf(path, current) {
  if (path === current) {
    return "page";
  }
  return path === "" && BELOW_ITEMS.includes(current) ? "true" : null;
}

/** @param {string} current */
function putNavigation(current) {
  const paths = ["", ...(caller.isHouse ? OF_HOUSE : OF_MEMBERS), "house"];
  const entries = paths.map(path => {
    const entry = link(path, say(path === "" ? "nav.items" : `nav.${path}`));
    const mark = currentOf(path, current);
    if (mark !== null) {
      entry.setAttribute("aria-current", mark);
    }
    return make("li", {}, entry);
  });
  replace(part("pages"), make("ul", {}, ...entries));
}

function putFoot() {
  const seconds = ahead();
  const words = { time: duration(Math.abs(seconds)) };
  const apart = say(seconds > 0 ? "time.ahead" : "time.behind", words);
  const known = seconds === 0 ? zoneInWords() : `${zoneInWords()} ${apart}`;
  put(part("clock"), isKnown() ? known : say("time.clock_unknown"));
}

/**
 * Why nothing is shown: a refusal has its sentence, and what is a fault of the page goes to the console too.
 * @param {unknown} error @returns {Shown}
 */
function failure(error) {
  if (!(error instanceof Refusal)) {
    console.error(error);
  }
  const why = error instanceof Refusal ? sentence(error.answer, { isRead: true }) : say("page.fault");
  const button = make("button", { type: "button", click: again }, say("page.try_again"));
  return { title: say("page.failed"), nodes: [make("p", {}, why), button] };
}

/**
 * The house has no bids and no statement: the interface would refuse it as nobody.
 * @param {string} name
 */
const isAnothers = name => !caller.isMember && OF_MEMBERS.includes(name);

/** @param {Visit} own @param {string} name @param {string[]} words @returns {Promise<Shown>} */
async function makePart(own, name, words) {
  if (isAnothers(name)) {
    return { title: say("page.members_only"), nodes: [make("p", {}, say("page.sign_in_as_member"))] };
  }
  try {
    return await (await partOf(name))(own, ...words);
  } catch (error) {
    return failure(error);
  }
}

/**
 * The entry of the browser's history that is shown.
 * @type {ReturnType<typeof entry>}
 */
let entryNow = { scroll: 0, noted: {} };
let addressNow = "";

// Keeps what the page that is left has, for who comes back.
function leave() {
  visit.end();
  entryNow.scroll = scrollY;
  keepDrafts(addressNow, content);
}

/**
 * Puts a part in the place of the one before.
 * @param {string} name @param {Shown} shown
 */
function putPart(name, { title, mark = "", of = null, nodes }) {
  content.removeAttribute("aria-busy");
  putNavigation(name);
  const heading = make("h1", { tabindex: "-1" }, quote(title));
  replace(content, of, heading, ...nodes);
  noteFields(content);
  putDrafts(addressNow, content);
  setTitle(title);
  markTitle(mark);
  tick();
  putFoot();
  scrollTo(0, entryNow.scroll);
  heading.focus({ preventScroll: true });
}

// Shows the part that the address names, unless another was asked for meanwhile.
async function show() {
  const [name = "", ...words] = location.hash.replace(/^#\/?/, "").split("/");
  entryNow = entry();
  addressNow = location.hash;
  const own = visit = new Visit(entryNow.noted);
  readUntil(own.signal);
  content.setAttribute("aria-busy", "true");
  const shown = await makePart(own, name, words);
  if (own.isOver) {
    return;
  }
  putPart(name, shown);
  countWaiting();
  own.repeat(() => WAITING, countWaiting);
}

function again() {
  visit.end();
  return show();
}

// The clock is heard of again where this machine slept, or its clock was set: then all that is left isn't known.
async function hearClock() {
  if (!isKnown() && !document.hidden) {
    await read("/house").catch(() => {});
    tick();
    putFoot();
  }
}

// Reads what all parts need, and first the words, since nothing can be said without them.
async function readAll() {
  const house = read("/house");
  const rest = Promise.all([findOut(house), house.then(({ zone }) => setZone(zone))]);
  rest.catch(() => {});
  await city;
  putWords();
  part("pages").setAttribute("aria-label", say("page.pages"));
  await rest;
}

/**
 * Says why the page can't begin. Where there are no words, index.html has a sentence.
 * @param {unknown} error
 */
function putFailure(error) {
  if (Object.keys(language.words).length === 0) {
    console.error(error);
    part("wordless").hidden = false;
    return;
  }
  const { title, nodes: [why] } = failure(error);
  const button = make("button", { type: "button", click: () => location.reload() }, say("page.load_again"));
  replace(content, make("h1", {}, title), why, button);
}

async function begin() {
  try {
    await readAll();
  } catch (error) {
    putFailure(error);
    return;
  }
  sayWho();
  replace(part("city"), ...atTheFoot());
  history.scrollRestoration = "manual";
  addEventListener("hashchange", () => {
    tell("");
    leave();
    show();
  });
  setInterval(tick, TICK);
  setInterval(putFoot, FOOT);
  setInterval(hearClock, HEAR);
  watchWhileHidden();
  await show();
  setTimeout(readParts, AHEAD);
}

// Who is signed in. The name of a member takes a read, for which nothing waits.
async function sayWho() {
  const name = caller.isMember ? await nameOf(caller.number).catch(() => nameByNumber(caller.number)) : say("page.the_house");
  put(part("who"), say("page.signed_in", { name: isolate(name) }));
}

// The address after # is that of a part, so the link to the content moves the keyboard alone.
part("skip").addEventListener("click", event => {
  event.preventDefault();
  content.focus();
});
begin();
