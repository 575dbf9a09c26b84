// Tests what the page makes of amounts, zones, moments and refusals: `node --test tests/web/page_modules.mjs`.
//
// And of spreadsheets; without a browser, and in both languages. parts/page_words.py holds zones and amounts against the C library
// in the browser.
//
// Promise: none
import assert from "node:assert/strict";
import { readFileSync } from "node:fs";
import { beforeEach, test } from "node:test";
import { csv } from "../../deploy/gateway/page/elements/files.js";
import { nameOrNone, titleOrNone } from "../../deploy/gateway/page/elements/dom.js";
import { dayInWords, duration, inWords } from "../../deploy/gateway/page/time/moments.js";
import { at, momentOf, parse } from "../../deploy/gateway/page/time/zone.js";
import { language, phrase, say, speak } from "../../deploy/gateway/page/words/language.js";
import { cents, money, plain, setCurrency, writtenMoney } from "../../deploy/gateway/page/words/money.js";
import { sentence } from "../../deploy/gateway/page/words/refusals.js";

const wordsOf = name => JSON.parse(readFileSync(new URL(`../../deploy/gateway/page/words/${name}.json`, import.meta.url), "utf8"));

beforeEach(() => {
  speak(wordsOf("en"));
  setCurrency("");
});

const table = (rows, work) => rows.forEach(([given, wanted]) => assert.deepEqual(work(given), wanted, JSON.stringify(given)));

test("amounts are read as they are meant, or not at all", () => table([
  ["12", 1200], ["12.5", 1250], ["12,50", 1250], ["0.01", 1], [" 7 ", 700],
  ["1,234.50", 123450], ["1.234,50", 123450], ["1 234", 123400], ["5 000", 500000], ["1 234 567,89", 123456789],
  ["1\u202f234.50", 123450], ["1\u00a0234", 123400],
  ["12 50", null], ["1 2", null], ["12 500 0", null], ["1  234", null], ["1,234", null], ["1.234", null], ["1 234,567", null],
  ["", null], ["12.", null], [".5", null], ["12 €", null], ["-1", null], ["1e3", null],
], cents));

test("an amount may have the name of the money after it or before it, and nowhere else", () => {
  setCurrency("€");
  table([
    ["12", 1200], ["12 €", 1200], ["12,50€", 1250], [" € 12.50 ", 1250], ["€12", 1200], ["1.234,50\u202f€", 123450],
    [money(123450), 123450],
    ["12€50", null], ["1 € 234", null], ["€ 12 €", null], ["12 € €", null], ["€", null], ["€ -1", null], ["12 $", null],
  ], cents);
});

test("amounts are shown with two decimals", () => table([
  [0, "0.00"], [5, "0.05"], [123450, "1,234.50"], [1_000_000_000, "10,000,000.00"],
], money));

test("amounts are shown in German, with the name of the money, and read back from a field", () => {
  speak(wordsOf("de"));
  table([[0, "0,00"], [123450, "1.234,50"], [1_000_000_000, "10.000.000,00"]], money);
  setCurrency("Taler");
  assert.equal(money(1250), "12,50\u00a0Taler");
  setCurrency("");
  assert.equal(writtenMoney(123450), "1234,50");
  assert.equal(cents(writtenMoney(123450)), 123450);
});

test("programs read amounts without commas, in any language", () => {
  assert.equal(plain(123450), "1234.50");
  speak(wordsOf("de"));
  assert.equal(plain(123450), "1234.50");
});

const BERLIN = parse("CET-1CEST,M3.5.0,M10.5.0/3");

test("a zone's clocks are set in spring and in autumn", () => table([
  [Date.UTC(2026, 2, 29, 0, 59, 59) / 1000, { name: "CET", offset: 3600 }],
  [Date.UTC(2026, 2, 29, 1, 0, 0) / 1000, { name: "CEST", offset: 7200 }],
  [Date.UTC(2026, 9, 25, 0, 59, 59) / 1000, { name: "CEST", offset: 7200 }],
  [Date.UTC(2026, 9, 25, 1, 0, 0) / 1000, { name: "CET", offset: 3600 }],
], moment => at(BERLIN, moment)));

test("the hour that comes twice is the first", () =>
  assert.equal(momentOf(BERLIN, "2026-10-25", "02:30"), Date.UTC(2026, 9, 25, 0, 30) / 1000));

test("what is no rule has no zone", () => table([["UTC", null], ["Europe/Berlin", null], ["", null]], parse));

test("how long it takes is told by its two greatest units", () => table([
  [0, "0 s"], [59, "59 s"], [60, "1 min 00 s"], [3_599, "59 min 59 s"], [3_600, "1 hour 0 min"], [7_260, "2 hours 1 min"],
  [86_400, "1 day 0 hours"], [190_000, "2 days 4 hours"],
], duration));

test("a day is told in words", () => {
  assert.equal(dayInWords("2026-11-05"), "5 November 2026");
  speak(wordsOf("de"));
  assert.equal(dayInWords("2026-03-05"), "5. März 2026");
});

test("a moment has its weekday and its zone", () => {
  assert.equal(inWords(Date.UTC(2026, 10, 26, 18, 5) / 1000), "Thursday 26 November 2026, 18:05 UTC");
  speak(wordsOf("de"));
  assert.equal(inWords(Date.UTC(2026, 10, 26, 18, 5) / 1000), "Donnerstag, 26. November 2026, 18:05 UTC");
});

test("how long it takes is told in German", () => {
  speak(wordsOf("de"));
  table([[59, "59 s"], [60, "1 min 00 s"], [3_600, "1 Stunde 0 min"], [90_000, "1 Tag 1 Stunde"], [190_000, "2 Tage 4 Stunden"]], duration);
});

test("a share is told as the language writes it", () => {
  assert.equal(language.percent.format(0.125), "12.5%");
  speak(wordsOf("de"));
  assert.equal(language.percent.format(0.125), "12,5\u00a0%");
});

test("a word that counts has the form of its number, and a word that nobody wrote is its key", () => {
  table([[1, "1 bid"], [2, "2 bids"], [1234, "1,234 bids"]], count => say("item.bids", { count }));
  speak(wordsOf("de"));
  table([[1, "1 Gebot"], [0, "0 Gebote"], [1234, "1.234 Gebote"]], count => say("item.bids", { count }));
  assert.equal(say("nothing.such"), "nothing.such");
});

test("a value is put as it is, also one that looks like a place for one", () =>
  assert.deepEqual(phrase("talk.asked", { name: "{name} & <b>" }), ["{name} & <b> asked"]));

test("a bid under the floor is told by what was shown", () => {
  assert.equal(sentence({ error: "Low", floor: 600 }, { floor: 550 }),
    "Somebody bid more meanwhile. The next bid is 6.00 or more.");
  speak(wordsOf("de"));
  assert.equal(sentence({ error: "Low", floor: 600 }, { floor: 550 }),
    "Inzwischen hat jemand mehr geboten. Das nächste Gebot ist 6,00 oder mehr.");
  speak(wordsOf("en"));
  assert.equal(sentence({ error: "Low", floor: 600 }, { floor: 600 }),
    "That is less than the next bid. The next bid is 6.00 or more.");
});

test("a word that nobody knows is told as it is", () => assert.match(sentence({ error: "Novel" }), /by the word Novel/));

test("a title that nobody can see has a name all the same", () => {
  table([["\u00a0", "(no title)"], ["\u2029\ufeff", "(no title)"], ["\u3164", "(no title)"], ["7", "7"], ["–", "–"]], titleOrNone);
  assert.equal(nameOrNone("\u200b"), "(no name)");
});

test("a spreadsheet runs nothing, and keeps amounts", () => table([
  [[["=1+1", "@SUM(A1)"]], "'=1+1,'@SUM(A1)\n"],
  [[["+49 30", "-x", " =y"]], "'+49 30,'-x,' =y\n"],
  [[["-12.50", 12, "12.50"]], "-12.50,12,12.50\n"],
  [[['a "b", c', "two\nlines"]], '"a ""b"", c","two\nlines"\n'],
], csv));
