// @ts-check
// Reads and commands of the interface that docs/HTTP.md describes.
import { hear } from "../time/clock.js";

// The address of the page may have a name and a password in it, and fetch takes no such address.
const BASE = `${location.origin}/api`;

// A list has so many entries, or it is the last.
const FULL = 50;

// Why something was not done: the body of the answer, or a word of ours where none came.
export class Refusal extends Error {
  /** @param {Fault} answer */
  constructor(answer) {
    super(answer.error);
    this.answer = answer;
  }
}

/**
 * Whether the house answered that what was asked for is not there.
 * @param {unknown} refusal
 */
export const isUnknown = refusal => refusal instanceof Refusal && refusal.answer.error === "Unknown";

/**
 * Whether nobody knows what came of a command.
 * @param {unknown} refusal
 */
export const isLost = refusal => refusal instanceof Refusal && ["silence", "gateway"].includes(refusal.answer.error);

// Reads end with the visit that asked: what nobody waits for any more costs the house nothing.
/** @type {AbortSignal | null} */
let leaving = null;

/** @param {AbortSignal} signal */
export function readUntil(signal) {
  leaving = signal;
}

/** @param {string} path @param {RequestInit} options */
async function exchange(path, options) {
  const sent = performance.now();
  let answer;
  let text;
  try {
    answer = await fetch(BASE + path, options);
    hear(answer.headers.get("date"), sent, performance.now());
    text = await answer.text();
  } catch {
    throw new Refusal({ error: "silence" });
  }
  const value = parse(text);
  if (!answer.ok || value === null) {
    throw new Refusal(value ?? { error: "gateway", why: "words" });
  }
  return value;
}

/**
 * The value of a body, or null where it is no JSON: then something else than the house or the gateway has answered.
 * @param {string} text
 */
function parse(text) {
  try {
    return JSON.parse(text);
  } catch {
    return null;
  }
}

/**
 * Reads that were begun before anybody needed them. Each is taken once.
 * @type {Map<string, Promise<any>>}
 */
const begun = new Map();

/** @param {string} path */
export function readAhead(path) {
  const answer = exchange(path, {});
  answer.catch(() => {});
  begun.set(path, answer);
}

// The gateway takes so many requests of a member in a second. What was too often is asked again after one, so many times at
// most: a long list of names is read so, if slowly.
const PAUSE = 1000;
const TRIES = 20;

/** @param {unknown} refusal */
const isTooOften = refusal => refusal instanceof Refusal && refusal.answer.why === "often";

/** @param {string} path @param {AbortSignal | null} signal */
async function readPatiently(path, signal) {
  for (let tries = 1; ; tries += 1) {
    try {
      return await exchange(path, { signal });
    } catch (refusal) {
      if (!isTooOften(refusal) || signal?.aborted || tries === TRIES) {
        throw refusal;
      }
      await new Promise(done => setTimeout(done, PAUSE));
    }
  }
}

/** @param {string} path @returns {Promise<any>} */
export function read(path) {
  const answer = begun.get(path) ?? readPatiently(path, leaving);
  begun.delete(path);
  return answer;
}

/** @param {string} path @param {object} [body] @returns {Promise<any>} */
export const send = (path, body = {}) => exchange(path, { method: "POST", body: JSON.stringify(body) });

// The lists that begin at a number: where the next one begins, by the last entry. One of questions begins at the last number
// again, since further questions may have it.
const NEXT = {
  bids: (/** @type {Bid} */ bid) => bid.item + 1,
  items: (/** @type {Item} */ item) => item.item + 1,
  feedback: (/** @type {Feedback} */ given) => given.item + 1,
  asked: (/** @type {Question} */ question) => question.item,
  published: (/** @type {Question} */ question) => question.asker,
};

/**
 * One list after the other, from a number on.
 * @param {string} path @param {keyof typeof NEXT} kind @param {number} [from] @returns {AsyncGenerator<any[]>}
 */
export async function* lists(path, kind, from = 1) {
  for (;;) {
    /** @type {any[]} */
    const list = Object.values(await read(`${path}/${from}`))[0];
    yield list;
    if (list.length < FULL) {
      return;
    }
    from = NEXT[kind](list[list.length - 1]);
  }
}

/**
 * All entries of such lists, from a number on. What is in two of them is there once.
 * @param {string} path @param {keyof typeof NEXT} kind @param {number} [from] @returns {Promise<any[]>}
 */
export async function whole(path, kind, from = 1) {
  const found = new Map();
  for await (const list of lists(path, kind, from)) {
    list.forEach(entry => found.set(JSON.stringify(entry), entry));
  }
  return [...found.values()];
}

/**
 * What comes of each of a list, at most so many asked at once: the house answers one at a time.
 * @template Entry, Result
 * @param {Entry[]} list @param {(entry: Entry) => Promise<Result>} work @param {number} [most] @returns {Promise<Result[]>}
 */
export async function each(list, work, most = 4) {
  /** @type {Result[]} */
  const results = [];
  const rest = list.entries();
  const worker = async () => {
    for (const [place, entry] of rest) {
      results[place] = await work(entry);
    }
  };
  await Promise.all(Array.from({ length: most }, worker));
  return results;
}
