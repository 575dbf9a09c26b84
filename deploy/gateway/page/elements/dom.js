// @ts-check
// Elements, made by calls alone. What members wrote goes in as text: nothing here reads HTML.
import { say } from "../words/language.js";

const SVG = "http://www.w3.org/2000/svg";

/**
 * @template {Element} Kind
 * @param {Kind} element @param {Record<string, any>} attributes @param {Content[]} children @returns {Kind}
 */
function fill(element, attributes, children) {
  for (const [name, value] of Object.entries(attributes)) {
    if (typeof value === "function") {
      element.addEventListener(name, value);
    } else if (value !== null && value !== false) {
      element.setAttribute(name, value === true ? "" : value);
    }
  }
  element.append(...present(children));
  return element;
}

/**
 * Children that are there.
 * @param {Content[]} children @returns {(string | Node)[]}
 */
const present = children => children.flatMap(child => {
  if (Array.isArray(child)) {
    return present(child);
  }
  if (child === null || child === undefined || child === false) {
    return [];
  }
  return [typeof child === "number" ? String(child) : child];
});

/**
 * A part of index.html.
 * @param {string} id
 */
export const part = id => /** @type {HTMLElement} */ (document.getElementById(id));

/**
 * An element with attributes and children. An attribute that is a function listens to the event of its name.
 * @template {keyof HTMLElementTagNameMap} Tag
 * @param {Tag} tag @param {Record<string, any>} [attributes] @param {Content[]} children @returns {HTMLElementTagNameMap[Tag]}
 */
export const make = (tag, attributes = {}, ...children) => fill(document.createElement(tag), attributes, children);

/**
 * The same in a drawing.
 * @param {string} tag @param {Record<string, any>} [attributes] @param {Content[]} children
 */
export const draw = (tag, attributes = {}, ...children) => fill(document.createElementNS(SVG, tag), attributes, children);

/** @param {Element} element @param {Content[]} children */
export const replace = (element, ...children) => element.replaceChildren(...present(children));

/**
 * Puts a text where another is. An equal one stays, so that no screen reader reads it again.
 * @param {Element} element @param {string} text
 */
export function put(element, text) {
  if (element.textContent !== text) {
    element.textContent = text;
  }
}

/**
 * What a member wrote, within a sentence of ours: marks of right-to-left in it turn nothing around it.
 * @param {string} text
 */
export const quote = text => make("bdi", {}, text);

// Letters that are written from the right, and marks that turn what is around them.
const TURNING = /[\u0590-\u08ff\u200e\u200f\u202a-\u202e\u2066-\u2069\ufb1d-\ufdff\ufe70-\ufefc]/;

/**
 * The same in a place for plain text alone, such as a window's title.
 * @param {string} text
 */
export const isolate = text => TURNING.test(text) ? `\u2068${text}\u2069` : text;

// What can be seen of a text: a letter, a digit, a mark. Five letters are as blank as spaces.
const BLANK = /[\u115f\u1160\u2800\u3164\uffa0]/gu;
/** @param {string} text */
const isSeen = text => /[\p{L}\p{N}\p{P}\p{S}]/u.test(text.replace(BLANK, ""));

/**
 * The title of an item. One of spaces alone would be a link without a name.
 * @param {string} title
 */
export const titleOrNone = title => isSeen(title) ? title : say("page.no_title");

/**
 * The same of a member or a category.
 * @param {string} name
 */
export const nameOrNone = name => isSeen(name) ? name : say("page.no_name");

/**
 * A long text of a member, a paragraph for each of its lines.
 * @param {string} text
 */
export const paragraphs = text => text.split(/[\u2028\u2029]/).map(line => make("p", { dir: "auto" }, line));

/** @param {string} path @param {Content[]} children */
export const link = (path, ...children) => make("a", { href: `#/${path}` }, ...children);

/**
 * The link to an item, by its title.
 * @param {{ item: number, title: string }} item
 */
export const itemLink = ({ item, title }) => link(`item/${item}`, quote(titleOrNone(title)));

/**
 * The link to a member, by its name.
 * @param {number} number @param {string} name
 */
export const memberLink = (number, name) => link(`member/${number}`, quote(name));
