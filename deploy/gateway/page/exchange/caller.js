// @ts-check
// Who is signed in. The interface has no read for that alone: an own page tells a member's number, and refuses the house.
import { Refusal, read } from "./api.js";

export const OWN = "/me/statement/1970-01-01/1970-01-01";

/**
 * The number is 0 for the house, and -1 until it is known.
 * @type {{ number: number, isMember: boolean, isHouse: boolean }}
 */
export const caller = { number: -1, isMember: false, isHouse: false };

/**
 * Finds it out, beside a read of the house that was begun.
 * @param {Promise<unknown>} house
 */
export async function findOut(house) {
  caller.number = await readNumber(house);
  caller.isMember = caller.number > 0;
  caller.isHouse = caller.number === 0;
}

/** @param {Promise<unknown>} house */
async function readNumber(house) {
  try {
    return (await read(OWN)).member;
  } catch (refusal) {
    if (!(refusal instanceof Refusal) || refusal.answer.error !== "NoCaller") {
      throw refusal;
    }
  }
  // Whom the house knows for no member, it may still know for itself: to any other number it tells nothing.
  await house;
  return 0;
}
