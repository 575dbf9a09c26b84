// @ts-check
// The band table by which prices rise, and for the house a form for the next one.
import { read, send } from "../exchange/api.js";
import { caller } from "../exchange/caller.js";
import { make } from "../elements/dom.js";
import { Mistake, linesField } from "../elements/fields.js";
import { form } from "../elements/form.js";
import { makeRefill } from "../elements/place.js";
import { isSure } from "../elements/question.js";
import { AMOUNT, table } from "../elements/table.js";
import { say } from "../words/language.js";
import { MOST, cents, money, writtenMoney } from "../words/money.js";

const MOST_BANDS = 50;

/** @param {Band[]} bands */
const linesOf = bands => bands.map(({ at, step }) => `${writtenMoney(at)}: ${writtenMoney(step)}`).join("\n");

/**
 * One line of the form: from which amount on prices rise by which step.
 * @param {string} line @returns {Band}
 */
function bandOf(line) {
  const amounts = line.split(":").map(cents);
  const [at, step] = amounts;
  if (amounts.length !== 2 || at === null || step === null) {
    throw new Mistake(say("bands.no_line", { line, example: `${writtenMoney(10_000)}: ${writtenMoney(250)}` }));
  }
  return { at, step };
}

/** @param {Band} before @param {Band} after */
function judgeOrder(before, after) {
  if (after.at <= before.at) {
    throw new Mistake(say("bands.does_not_rise", { amount: money(after.at) }));
  }
  if (after.step < before.step) {
    throw new Mistake(say("bands.smaller_step", { amount: money(after.step) }));
  }
}

/** @param {Band[]} bands */
const isWithin = bands => bands[0].step >= 1 && bands.length <= MOST_BANDS
  && bands.every(({ at, step }) => at <= MOST && step <= MOST);

/**
 * The table that some lines mean, or the first mistake in them.
 * @param {string[]} lines
 */
export function bandsOf(lines) {
  const bands = lines.map(bandOf);
  if (bands.length === 0 || bands[0].at !== 0) {
    throw new Mistake(say("bands.first_line", { amount: money(0) }));
  }
  bands.slice(1).forEach((band, place) => judgeOrder(bands[place], band));
  if (!isWithin(bands)) {
    throw new Mistake(say("bands.limits", { least: money(1), most: money(MOST), count: MOST_BANDS }));
  }
  return bands;
}

/** @param {Band[]} bands */
const isMeant = bands => isSure({
  title: say("bands.sure"), text: say("bands.sure_text", { count: bands.length }),
  yes: say("bands.sure_yes"), no: say("bands.sure_no"),
});

/** @param {Band[]} bands @param {() => Promise<void>} after */
function bandsForm(bands, after) {
  const field = linesField(say("bands.new"), {
    rows: bands.length + 2, value: linesOf(bands), judge: bandsOf, hint: say("bands.hint"),
  });
  return form({
    fields: [field], button: say("bands.set"), waits: say("bands.sets"), context: () => ({ tried: "bands" }), isMeant,
    unless: say("bands.nothing"),
    act: async (/** @type {Band[]} */ next) => {
      const { edition } = await send("/bands", { bands: next });
      await after().catch(() => {});
      return say("bands.done", { edition });
    },
  }).node;
}

/** @param {Band[]} bands */
function asTable(bands) {
  const rows = bands.map(({ at, step }) => [money(at), money(step)]);
  const holds = make("p", { class: "soft" }, say("bands.holds"));
  const found = table(say("bands.caption"), [[say("column.at"), AMOUNT], [say("column.step"), AMOUNT]], rows);
  return make("div", { class: "small" }, found, holds);
}

// The table, and beside it the form for who runs the house.
export async function bandsPart() {
  /** @type {() => Promise<Band[]>} */
  const readBands = async () => (await read("/bands")).bands;
  const place = make("div");
  const refill = makeRefill(place);
  const show = (/** @type {Band[]} */ bands) => refill(bands, () => [asTable(bands)]);
  const bands = await readBands();
  show(bands);
  if (!caller.isHouse) {
    return place;
  }
  return make("div", { class: "beside" }, place, make("section", { class: "box" }, make("h2", {}, say("bands.another")),
    bandsForm(bands, async () => show(await readBands()))));
}
