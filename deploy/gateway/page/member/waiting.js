// @ts-check
// How many questions wait for the caller's answer, in the entry of the navigation that leads to them.
import { read } from "../exchange/api.js";
import { caller } from "../exchange/caller.js";
import { put } from "../elements/dom.js";
import { say } from "../words/language.js";

// Nothing waits for this read, and where it fails the entry stays as it is.
export async function countWaiting() {
  if (!caller.isMember) {
    return;
  }
  const found = await read("/me/waiting").catch(() => null);
  const entry = document.querySelector('#pages a[href="#/questions"]');
  if (found && entry) {
    const count = found.questions.length;
    put(entry, count ? say("nav.questions_waiting", { count }) : say("nav.questions"));
  }
}
