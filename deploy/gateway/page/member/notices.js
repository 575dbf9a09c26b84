// @ts-check
// Where notices go: a mail address that the gateway alone keeps, and the browser.
import { make } from "../elements/dom.js";
import { Mistake, lineField } from "../elements/fields.js";
import { action, form } from "../elements/form.js";
import { allow, isAllowed } from "../elements/notify.js";
import { Refusal } from "../exchange/api.js";
import { say } from "../words/language.js";

const ADDRESS = `${location.origin}/address`;
const FORM = /^[A-Za-z0-9][A-Za-z0-9._%+-]*@[A-Za-z0-9-]+(\.[A-Za-z0-9-]+)+$/;
const MOST = 200;

/**
 * The address that the gateway has, or none. It is a file of the gateway, and no part of the house.
 * @param {RequestInit} [options]
 */
async function ask(options = {}) {
  const answer = await fetch(ADDRESS, options).catch(() => null);
  if (answer === null || ![200, 201, 204, 404].includes(answer.status)) {
    throw new Refusal({ error: "gateway", why: "address" });
  }
  return answer.status === 200 ? answer.text() : "";
}

/** @param {string} text */
function judgeAddress(text) {
  const address = text.trim();
  if (address !== "" && (!FORM.test(address) || address.length > MOST)) {
    throw new Mistake(say("notices.no_address"));
  }
  return address;
}

/** @param {string} address */
const save = address => ask(address === "" ? { method: "DELETE" } : { method: "PUT", body: address });

/** @param {string} address */
function mailForm(address) {
  const field = lineField(say("notices.address"), { value: address, judge: judgeAddress, hint: say("notices.address_hint") });
  return form({
    fields: [field], button: say("notices.keep"), waits: say("notices.keeps"), context: () => ({ isRead: true }),
    act: async (/** @type {string} */ value) => {
      await save(value);
      return value === "" ? say("notices.no_mail") : say("notices.mail_goes", { address: value });
    },
  }).node;
}

function browserPart() {
  if (isAllowed()) {
    return make("p", {}, say("notices.allowed"));
  }
  return action({
    button: say("notices.allow"), waits: say("notices.asks"), kind: "plain",
    act: async () => await allow() ? say("notices.allowed") : { colour: "refused", sentence: say("notices.not_allowed") },
  }).node;
}

/** @returns {Promise<Shown>} */
export async function notices() {
  const address = await ask();
  const about = make("p", { class: "soft" }, say("notices.about"));
  return { title: say("nav.notices"), nodes: [
    make("section", { class: "box narrow" }, make("h2", {}, say("notices.by_mail")), about, mailForm(address)),
    make("section", { class: "box narrow" }, make("h2", {}, say("notices.in_browser")), browserPart())] };
}
