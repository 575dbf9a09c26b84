// @ts-check
// What the browser tells beside the page, where the member wants it.

const isPossible = () => "Notification" in window;

export const isAllowed = () => isPossible() && Notification.permission === "granted";

/**
 * Asks the browser, which asks the member.
 * @returns {Promise<boolean>}
 */
export async function allow() {
  return isPossible() && await Notification.requestPermission() === "granted";
}

/**
 * One notice for each thing: a second one takes the place of the first.
 * @param {string} text @param {string} thing
 */
export function notify(text, thing) {
  if (isAllowed()) {
    new Notification(text, { tag: thing });
  }
}
