// Compares the words of the page in its languages: `node --test tests/web/page_language.mjs`.
//
// Both languages have the same keys and the same places for values, each key is used, and no sentence that a member sees stands
// anywhere else.
//
// Promise: none
import assert from "node:assert/strict";
import { readFileSync, readdirSync } from "node:fs";
import { test } from "node:test";

const GATEWAY = new URL("../../deploy/gateway/", import.meta.url);
const text = name => readFileSync(new URL(name, GATEWAY), "utf8");
const words = Object.fromEntries(["en", "de"].map(name => [name, JSON.parse(text(`page/words/${name}.json`))]));
const modules = readdirSync(new URL("page/", GATEWAY), { recursive: true }).filter(name => name.endsWith(".js"));
const forms = ["index.html", "sign-in.html", "password.html"];

const keysOf = language => Object.entries(language).flatMap(([group, entries]) => Object.keys(entries).map(name => `${group}.${name}`));
const wordOf = (language, key) => language[key.split(".")[0]]?.[key.split(".")[1]];
const formsOf = word => typeof word === "string" ? [word] : Object.values(word);
const placesIn = word => [...new Set(formsOf(word).flatMap(form => form.match(/\{\w+\}/g) ?? []))].sort();

// The pieces of a module's source: comments, regular expressions, and texts, which are what is looked at.
const PIECES = /\/\/[^\n]*|\/\*[^]*?\*\/|(?<=(?:[(,=:[!&|?{};]|return)\s*)\/(?:[^/\\\n[]|\\.|\[(?:[^\]\\\n]|\\.)*\])+\/[a-z]*|"((?:[^"\\\n]|\\.)*)"|'((?:[^'\\\n]|\\.)*)'|`((?:[^`\\]|\\.)*)`/g;

const literalsOf = source => [...source.matchAll(PIECES)]
  .map(match => ({ text: match[1] ?? match[2] ?? match[3], before: source.slice(Math.max(0, match.index - 30), match.index) }))
  .filter(literal => literal.text !== undefined);

// A text that somebody could read: a word with a capital, or two words. Names of classes and files are not.
function isSentence({ text: literal, before }) {
  const bare = literal.replace(/\$\{[^}]*\}/g, "");
  const isName = /class(?:Name)?(?: =|:) $/.test(before) || /from $|import\($/.test(before);
  return !isName && (/(^|\s)[A-Z][a-z]+/.test(bare) || /[a-z]{2,} [a-z]{2,}/.test(bare));
}

// What has to be as it is: names of errors of the interface, and a name of the browser's.
const NAMES = ["NoCaller", "Unknown", "Low", "NotHigher", "LotExists", "Notification"];

const sentencesIn = source => literalsOf(source).filter(isSentence).map(literal => literal.text).filter(one => !NAMES.includes(one));

test("both languages have the same keys", () => assert.deepEqual(keysOf(words.en).sort(), keysOf(words.de).sort()));

test("both languages have the same values in a word", () => keysOf(words.en).filter(key => key !== "language.locale")
  .forEach(key => assert.deepEqual(placesIn(wordOf(words.de, key)), placesIn(wordOf(words.en, key)), key)));

test("a word that counts has a form for each number of its language", () => Object.values(words).forEach(language => {
  const numbers = new Intl.PluralRules(language.language.locale).resolvedOptions().pluralCategories;
  keysOf(language).map(key => [key, wordOf(language, key)]).filter(([, word]) => typeof word !== "string")
    .forEach(([key, word]) => assert.deepEqual(Object.keys(word).sort(), [...numbers].sort(), key));
}));

// Words that both languages have.
const SAME = ["members.name", "time.minutes", "time.seconds"];

test("no word is empty, and each is translated", () => keysOf(words.en).forEach(key => {
  assert.ok(formsOf(wordOf(words.de, key)).every(form => form.trim() !== ""), key);
  const isSame = JSON.stringify(wordOf(words.de, key)) === JSON.stringify(wordOf(words.en, key));
  assert.ok(!isSame || SAME.includes(key), `${key} is not translated`);
}));
// Groups whose keys are put together: by an error of the interface, by a state, by the part of the page, and by what a mail tells.
const BY_NAME = ["rule", "rule_of", "gateway", "fault", "state", "nav"];

test("each key is used", () => {
  const source = modules.map(name => text(`page/${name}`)).join("\n");
  const used = new Set([...source.matchAll(/"([a-z_]+\.[a-z_]+)"/g)].map(match => match[1]));
  const said = new Set(forms.flatMap(name => [...text(`page/${name}`).matchAll(/data-say="([^"]+)"/g)].map(match => match[1])));
  const idle = keysOf(words.en).filter(key => !used.has(key) && !said.has(key) && !BY_NAME.includes(key.split(".")[0]) && !key.startsWith("mail."));
  assert.deepEqual(idle, []);
  const keys = new Set(keysOf(words.en));
  assert.deepEqual([...used, ...said].filter(key => !key.endsWith(".json") && Object.hasOwn(words.en, key.split(".")[0]) && !keys.has(key)), []);
});

test("keys that are put together are those that there are", () => {
  const main = text("page/main.js");
  const [members, house] = ["OF_MEMBERS", "OF_HOUSE"].map(name => JSON.parse(new RegExp(`const ${name} = (\\[[^\\]]*\\])`).exec(main)[1]));
  assert.deepEqual(Object.keys(words.en.nav).sort(), ["items", "questions_waiting", ...members, ...house, "house"].sort());
  assert.deepEqual(Object.keys(words.en.state).sort(), ["ended", "open", "settled", "sold", "unsold"]);
  const kinds = [...text("notices/events.py").matchAll(/Event\([^,]*, "(\w+)"/g)].map(match => match[1]);
  assert.deepEqual(Object.keys(words.en.mail).sort(),
    ["decimal", "thousands", ...kinds.flatMap(kind => [`${kind}_subject`, `${kind}_text`])].sort());
});

test("no sentence stands in a module", () => {
  modules.forEach(name => assert.deepEqual(sentencesIn(text(`page/${name}`)), [], name));
  assert.deepEqual(sentencesIn('make("p", { class: "soft small" }, "You lead"); // "not this"\ncall(/"nor this"/, `so many: ${"x"} are left`);'),
    ["You lead", 'so many: ${"x"} are left']);
});

// What a browser shows before the words are there, or without scripts.
const FIXED = /<noscript>[^]*?<\/noscript>|<div id="wordless"[^]*?<\/div>/g;

test("the pages have the English words, and no others", () => forms.forEach(name => {
  const source = text(`page/${name}`).replace(FIXED, "");
  for (const [, key, shown] of source.matchAll(/data-say="([^"]+)">([^<]*)</g)) {
    assert.ok(shown === "" || shown === wordOf(words.en, key), `${name}: ${key}`);
  }
  const bare = source.replace(/ data-say="[^"]+">[^<]*</g, "><").replace(/<[^>]*>/g, "");
  assert.equal(bare.trim(), "", name);
}));

test("mails write amounts as the page does", () => Object.values(words).forEach(({ language, mail }) => {
  const parts = new Intl.NumberFormat(language.locale, { minimumFractionDigits: 2 }).formatToParts(1234567.5);
  assert.equal(parts.map(part => part.value).join(""), `1${mail.thousands}234${mail.thousands}567${mail.decimal}50`);
}));
