// @ts-check
// What each member owes and gets for a period, and what the house keeps. All of it is public: price, parties, the day of
// the closing and the rate tell it, as the house's own statements do.
import { read } from "../exchange/api.js";
import { namesOf } from "../exchange/known.js";
import { make, memberLink, titleOrNone } from "../elements/dom.js";
import { csv, save } from "../elements/files.js";
import { action } from "../elements/form.js";
import { AMOUNT, SUBJECT, sums, table } from "../elements/table.js";
import { allItems, provenance } from "../items/lists.js";
import { isSold } from "../items/standing.js";
import { nothingIn, periodForm, periodInWords, periodOf } from "../member/period.js";
import { dayAt } from "../time/moments.js";
import { language, say } from "../words/language.js";
import { plain, money } from "../words/money.js";
import { feeOf } from "./fee.js";

/**
 * @typedef {Item & { day: string, fee: number, buyer: number, moment: number }} Sale
 * @typedef {{ member: number, sold: number, fees: number, net: number, bought: number, owed: number }} Account
 */

// Without a catalogue so many items of each category are looked through.
const ENOUGH = 1000;

// The columns of the file, for programs.
const HEAD = ["day", "item", "title", "seller", "seller_name", "buyer", "buyer_name", "price", "fee", "net", "state"];

/**
 * What an account sums up. What is owed is the part of the purchases that is not settled yet.
 * @type {("sold" | "fees" | "net" | "bought" | "owed")[]}
 */
const SUMS = ["sold", "fees", "net", "bought", "owed"];

/**
 * An item that is sold, as a sale; nothing of any other.
 * @param {Item} item @param {number} rate @returns {Sale[]}
 */
function saleOf(item, rate) {
  if (!isSold(item) || item.leader === null || item.closed === null) {
    return [];
  }
  return [{ ...item, day: dayAt(item.closed), fee: feeOf(item.price, rate), buyer: item.leader, moment: item.closed }];
}

/**
 * The sales of a period, by day and number.
 * @param {Visit} visit @param {string} from @param {string} to
 */
async function salesOf(visit, from, to) {
  const [list, { rate }] = await Promise.all([allItems(visit, ENOUGH), read("/house")]);
  const sales = list.items.flatMap(item => saleOf(item, rate)).filter(({ day }) => from <= day && day <= to)
    .sort((one, two) => one.moment - two.moment || one.item - two.item);
  return { sales, list };
}

/**
 * What each member sold and bought, by number.
 * @param {Sale[]} sales
 */
export function accountsOf(sales) {
  /** @type {Map<number, Account>} */
  const accounts = new Map();
  const of = (/** @type {number} */ member) => {
    const account = accounts.get(member) ?? { member, sold: 0, fees: 0, net: 0, bought: 0, owed: 0 };
    accounts.set(member, account);
    return account;
  };
  for (const { seller, buyer, price, fee, state } of sales) {
    const account = of(seller);
    account.sold += price;
    account.fees += fee;
    account.net += price - fee;
    of(buyer).bought += price;
    of(buyer).owed += state === "sold" ? price : 0;
  }
  return [...accounts.values()].sort((one, two) => one.member - two.member);
}

/** @param {Account[]} accounts @param {keyof Account} key */
const total = (accounts, key) => accounts.reduce((all, account) => all + account[key], 0);

/** @returns {import("../elements/table.js").Column[]} */
const columns = () => [[say("column.member"), SUBJECT], [say("column.sold"), AMOUNT], [say("column.fees"), AMOUNT],
  [say("column.gets"), AMOUNT], [say("column.bought"), AMOUNT], [say("column.owes"), AMOUNT]];

/** @param {Account[]} accounts @param {TextsByNumber} names */
function byMember(accounts, names) {
  const row = (/** @type {Account} */ account) => [memberLink(account.member, names.get(account.member)),
    ...SUMS.map(key => money(account[key]))];
  return table(say("accounts.by_member"), columns(), accounts.map(row),
    [[say("accounts.all_members"), ...SUMS.map(key => money(total(accounts, key)))]]);
}

/** @param {Sale[]} sales @param {TextsByNumber} names */
const spreadsheet = (sales, names) => csv([HEAD, ...sales.map(({ day, item, title, seller, buyer, price, fee, state }) =>
  [day, item, titleOrNone(title), seller, names.get(seller), buyer, names.get(buyer), plain(price), plain(fee), plain(price - fee),
    state])]);

/** @param {Sale[]} sales @param {TextsByNumber} names @param {string} from @param {string} to */
function download(sales, names, from, to) {
  return action({
    button: say("accounts.save"), waits: say("form.reads"), kind: "plain", context: () => ({ isRead: true }),
    act: () => {
      save(`accounts-${from}-${to}.csv`, "text/csv", spreadsheet(sales, names));
      return say("file.saved");
    },
  }).node;
}

/** @param {Visit} visit @param {string} [first] @param {string} [last] @returns {Promise<Shown>} */
export async function accounts(visit, first, last) {
  const [from, to] = periodOf(first, last);
  const { sales, list } = await salesOf(visit, from, to);
  const all = accountsOf(sales);
  const names = await namesOf(all.map(account => account.member), Infinity);
  const unpaid = sales.filter(sale => sale.state === "sold").length;
  const nodes = sales.length ? [
    sums([[say("accounts.fees"), money(total(all, "fees"))], [say("accounts.sales"), language.whole.format(sales.length)],
      [say("accounts.unsettled"), language.whole.format(unpaid)]]),
    byMember(all, names), download(sales, names, from, to)] : [nothingIn(say("accounts.none"))];
  const about = make("p", { class: "soft" }, periodInWords(from, to));
  return { title: say("nav.accounts"),
    nodes: [about, periodForm("accounts", from, to), provenance(list, say("accounts.newer")), ...nodes] };
}
