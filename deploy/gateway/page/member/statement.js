// @ts-check
// What the caller sold and bought in a period: a chart, a table, and a file for a spreadsheet.
import { read } from "../exchange/api.js";
import { caller } from "../exchange/caller.js";
import { chart } from "../elements/chart.js";
import { link, make, memberLink, quote } from "../elements/dom.js";
import { csv, save } from "../elements/files.js";
import { action } from "../elements/form.js";
import { nameOf, namesOf, titlesOf } from "../exchange/known.js";
import { dayInWords } from "../time/moments.js";
import { phrase, say } from "../words/language.js";
import { plain, money } from "../words/money.js";
import { nothingIn, periodForm, periodInWords, periodOf } from "./period.js";
import { AMOUNT, SUBJECT, TEXT, sums, table } from "../elements/table.js";

// The columns of `auction statement --csv`, and then what the numbers of item and party stand for.
const HEAD = ["day", "item", "role", "other", "price", "fee", "net", "title", "name"];

/** @param {Line[]} lines @param {TextsByNumber} titles @param {TextsByNumber} names */
const spreadsheet = (lines, titles, names) => csv([HEAD, ...lines.map(({ day, item, role, other, price, fee, net }) =>
  [day, item, role, other, plain(price), plain(fee), plain(net), titles.get(item), names.get(other)])]);

/** @returns {import("../elements/table.js").Column[]} */
const columns = () => [[say("column.day"), TEXT], [say("column.item"), SUBJECT], [say("column.role"), TEXT],
  [say("column.with"), TEXT], [say("column.price"), AMOUNT], [say("column.fee"), AMOUNT], [say("column.net"), AMOUNT]];

/** @param {Line} line @param {TextsByNumber} titles @param {TextsByNumber} names @returns {Content[]} */
function row({ day, item, role, other, price, fee, net }, titles, names) {
  const isSale = role === "sell";
  return [dayInWords(day), link(`item/${item}`, quote(titles.get(item))), say(isSale ? "statement.sale" : "statement.purchase"),
    memberLink(other, names.get(other)), money(price), isSale ? money(fee) : "", isSale ? money(net) : ""];
}

/** @param {Statement} statement @param {TextsByNumber} titles @param {TextsByNumber} names */
function linesTable({ lines, sold, fees, net, bought }, titles, names) {
  const both = [["", say("statement.all_sold"), "", "", money(sold), money(fees), money(net)],
    ["", say("statement.all_bought"), "", "", money(bought), "", ""]];
  return table(say("statement.caption"), columns(), lines.map(line => row(line, titles, names)), both);
}

/** @param {Statement} statement */
const totals = ({ sold, fees, net, bought }) => sums([[say("statement.sold"), money(sold)], [say("statement.fees"), money(fees)],
  [say("statement.get"), money(net)], [say("statement.bought"), money(bought)]]);

/**
 * A table for a spreadsheet: in it every item and party has its name, however many there are.
 * @param {Statement} statement @param {string} from @param {string} to
 */
function download({ lines }, from, to) {
  return action({
    button: say("file.save"), waits: say("form.reads"), kind: "plain", context: () => ({ isRead: true }),
    act: async () => {
      const [titles, names] = await namesIn(lines, Infinity);
      save(`statement-${from}-${to}.csv`, "text/csv", spreadsheet(lines, titles, names));
      return say("file.saved");
    },
  }).node;
}

/** @param {Line[]} lines @param {number} most */
const namesIn = (lines, most) => Promise.all([titlesOf(lines.map(line => line.item), most),
  namesOf(lines.map(line => line.other), most)]);

// Of a long statement the names of the last are read for the page itself.
const SHOWN = 200;

/** @param {Visit} visit @param {string} [first] @param {string} [last] @returns {Promise<Shown>} */
export async function statement(visit, first, last) {
  const [from, to] = periodOf(first, last);
  /** @type {Statement} */
  const answer = await read(`/me/statement/${from}/${to}`);
  const heading = make("p", { class: "soft" }, phrase("statement.for",
    { name: quote(await nameOf(caller.number)), days: periodInWords(from, to) }));
  const [titles, names] = await namesIn(answer.lines, SHOWN);
  const nodes = answer.lines.length
    ? [totals(answer), chart(answer.lines), linesTable(answer, titles, names), download(answer, from, to)]
    : [nothingIn(say("statement.none"))];
  return { title: say("nav.statement"), nodes: [heading, periodForm("statement", from, to), ...nodes] };
}
