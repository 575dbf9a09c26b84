// @ts-check
// A second question before what can't be taken back.
import { make } from "./dom.js";

/**
 * Whether somebody says yes, in a window over the page. Escape is a no, and the keyboard goes back where it was.
 * @param {{ title: string, text: Content, yes: string, no: string }} words @returns {Promise<boolean>}
 */
export function isSure({ title, text, yes, no }) {
  const heading = make("h2", { id: "question-title" }, title);
  const close = (/** @type {string} */ value) => () => dialog.close(value);
  const dialog = make("dialog", { "aria-labelledby": heading.id, "aria-describedby": "question-text" },
    heading,
    make("p", { id: "question-text" }, text),
    make("div", { class: "row" },
      make("button", { type: "button", click: close("yes") }, yes),
      make("button", { type: "button", class: "plain", autofocus: true, click: close("no") }, no)));
  document.body.append(dialog);
  dialog.showModal();
  // Who leaves the page has not said yes.
  const leave = close("no");
  addEventListener("hashchange", leave);
  return new Promise(done => dialog.addEventListener("close", () => {
    removeEventListener("hashchange", leave);
    dialog.remove();
    done(dialog.returnValue === "yes");
  }));
}
