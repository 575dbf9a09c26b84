// @ts-check
// What a refusal means, in a sentence that says what happened, and what to do.
import { language, say } from "./language.js";
import { money } from "./money.js";

/**
 * The sentence by which a group of words explains an error, or none.
 * @param {string} group @param {string} name
 */
function explain(group, name) {
  const words = language.words[group] ?? {};
  return Object.hasOwn(words, name) ? String(words[name]) : undefined;
}

/**
 * A bid under the floor: what the page had shown tells whether somebody was faster.
 * @param {number} floor @param {Tried} context
 */
function sayLow(floor, context) {
  const isLate = typeof context.floor === "number" && context.floor < floor;
  return say(isLate ? "refused.outrun" : "refused.too_low", { amount: money(floor) });
}

/** @param {Tried} context */
const sayNotHigher = context => context.maximum === undefined ? say("refused.not_higher")
  : say("refused.not_over_own", { amount: money(context.maximum) });

// The gateway's words for what it did not pass on.
const TURNED = ["slow", "head", "path", "method", "host"];

/**
 * Where the house didn't answer, or something else did, nobody knows what it has done.
 * @param {Fault} answer @param {Tried} context
 */
function sayOfGateway({ why = "" }, context) {
  const known = TURNED.includes(why) ? say("refused.turned") : explain("gateway", why);
  return known ?? say(context.isRead ? "refused.unread" : "refused.unsure");
}

/**
 * Where an error means another thing by what was tried, its key has that before it.
 * @param {Fault} answer @param {Tried} context
 */
const sayOfRule = ({ error }, context) => explain("rule_of", `${context.tried}_${error}`) ?? explain("rule", error)
  ?? explain("fault", error) ?? say("refused.other", { error });

/**
 * The sentence for a refusal, by what was tried: its name, and the floor and the own maximum that were shown.
 * @param {Fault} answer @param {Tried} [context] @returns {string}
 */
export function sentence(answer, context = {}) {
  switch (answer.error) {
    case "Low":
      return sayLow(answer.floor ?? 0, context);
    case "NotHigher":
      return sayNotHigher(context);
    case "field":
      return say("refused.field", { field: answer.field ?? "" });
    case "silence":
    case "gateway":
      return sayOfGateway(answer, context);
    default:
      return sayOfRule(answer, context);
  }
}
