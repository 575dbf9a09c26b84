// What is wrong with a page as it is drawn: names, roles, contrast, sizes. The last line gives a list of sentences.
// The measures are those of WCAG 2.2, level AA.

const wrong = [];
const say = (what, element) => wrong.push(`${what}: ${element.outerHTML.slice(0, 120)}`);
const all = selector => [...document.querySelectorAll(selector)];

function isDrawn(element) {
  const box = element.getBoundingClientRect();
  return element.checkVisibility({ visibilityProperty: true, opacityProperty: true }) && box.width > 0 && box.height > 0 && box.right > 0;
}

// Colours, as the browser computes them.

function colour(text) {
  const parts = /^rgba?\(([^)]*)\)$/.exec(text);
  const numbers = (parts ? parts[1] : "0, 0, 0, 0").split(/[ ,/]+/).map(Number);
  return { red: numbers[0], green: numbers[1], blue: numbers[2], alpha: numbers[3] ?? 1 };
}

const over = (front, back) => ({
  red: front.red * front.alpha + back.red * (1 - front.alpha), green: front.green * front.alpha + back.green * (1 - front.alpha),
  blue: front.blue * front.alpha + back.blue * (1 - front.alpha), alpha: 1,
});

function ground(element) {
  const layers = [];
  for (let one = element; one; one = one.parentElement) {
    const layer = colour(getComputedStyle(one).backgroundColor);
    layers.push(layer);
    if (layer.alpha === 1) {
      break;
    }
  }
  const canvas = matchMedia("(prefers-color-scheme: dark)").matches ? 0 : 255;
  return layers.reduceRight((back, front) => over(front, back), { red: canvas, green: canvas, blue: canvas, alpha: 1 });
}

function light({ red, green, blue }) {
  const [r, g, b] = [red, green, blue].map(part => part / 255).map(part => part <= 0.04045 ? part / 12.92 : ((part + 0.055) / 1.055) ** 2.4);
  return 0.2126 * r + 0.7152 * g + 0.0722 * b;
}

function contrast(one, two) {
  const [dark, bright] = [light(one), light(two)].sort((a, b) => a - b);
  return (bright + 0.05) / (dark + 0.05);
}

function texts() {
  const walker = document.createTreeWalker(document.body, NodeFilter.SHOW_TEXT);
  while (walker.nextNode()) {
    const element = walker.currentNode.parentElement;
    if (!walker.currentNode.data.trim() || !isDrawn(element) || element.closest("option, title")) {
      continue;
    }
    const style = getComputedStyle(element);
    const size = parseFloat(style.fontSize);
    const isLarge = size >= 24 || size >= 18.66 && Number(style.fontWeight) >= 700;
    const back = ground(element);
    const ratio = contrast(over(colour(element instanceof SVGElement ? style.fill : style.color), back), back);
    if (ratio < (isLarge ? 3 : 4.5)) {
      say(`contrast ${ratio.toFixed(2)}`, element);
    }
  }
}

// What shows where a part begins: its border or its ground against what is around it, and bars of a chart.
function edges() {
  for (const element of all("input, textarea, select, button")) {
    if (isDrawn(element)) {
      const style = getComputedStyle(element);
      const around = ground(element.parentElement);
      const ratio = Math.max(contrast(colour(style.borderTopColor), around), contrast(ground(element), around));
      if (ratio < 3) {
        say(`edge ${ratio.toFixed(2)}`, element);
      }
    }
  }
  for (const bar of all("svg rect")) {
    if (contrast(colour(getComputedStyle(bar).fill), ground(bar)) < 3) {
      say("bar", bar);
    }
  }
}

function sizes() {
  for (const element of all("button, input, select, textarea, a")) {
    const box = element.getBoundingClientRect();
    const isInline = getComputedStyle(element).display === "inline";
    if (isDrawn(element) && !isInline && (box.width < 24 || box.height < 24)) {
      say(`size ${box.width} by ${box.height}`, element);
    }
  }
  const root = document.documentElement;
  if (root.scrollWidth > root.clientWidth) {
    wrong.push(`wider than the window: ${root.scrollWidth} of ${root.clientWidth}`);
  }
  for (const element of all("main *")) {
    if (element.scrollWidth > element.clientWidth + 1 && ["auto", "scroll"].includes(getComputedStyle(element).overflowX)
      && !["TEXTAREA", "INPUT", "SELECT"].includes(element.tagName)) {
      say("scrolls sideways", element);
    }
  }
}

function structure() {
  const one = (selector, name) => all(selector).length === 1 || wrong.push(`${all(selector).length} ${name}`);
  one("h1", "headings of the first level");
  one("main", "main parts");
  one("body > header", "headers");
  one("nav[aria-label]", "navigations with a name");
  document.documentElement.lang || wrong.push("no language");
  document.title.trim() || wrong.push("no title");
  let level = 0;
  for (const heading of all("h1, h2, h3, h4, h5, h6")) {
    const next = Number(heading.tagName[1]);
    if (isDrawn(heading) && next > level + 1) {
      say(`a heading of level ${next} after one of ${level}`, heading);
    }
    level = isDrawn(heading) ? next : level;
  }
}

function references() {
  const ids = all("[id]").map(element => element.id);
  ids.filter((id, place) => ids.indexOf(id) !== place).forEach(id => wrong.push(`two with the id ${id}`));
  for (const name of ["for", "aria-labelledby", "aria-describedby", "aria-controls"]) {
    for (const element of all(`[${name}]`)) {
      element.getAttribute(name).split(" ").filter(id => !ids.includes(id)).forEach(id => say(`no ${id}`, element));
    }
  }
}

function parts() {
  all("ul > :not(li), ol > :not(li)").forEach(element => say("no entry of a list", element));
  all("li").filter(element => !element.parentElement.matches("ul, ol")).forEach(element => say("an entry of no list", element));
  all("dl > :not(div, dt, dd)").forEach(element => say("no part of a list of terms", element));
  all("th:not([scope])").forEach(element => say("a head without a scope", element));
  all("table").filter(table => !table.caption).forEach(table => say("a table without a caption", table));
  all("img:not([alt]), svg:not([role][aria-label])").forEach(element => say("a picture without a name", element));
  all("[tabindex]").filter(element => element.tabIndex > 0).forEach(element => say("an order of its own", element));
  all("[style], [onclick], [onerror], [onload]").forEach(element => say("style or script within", element));
  all("input:not([type=hidden]), textarea, select").filter(element => !element.labels.length).forEach(element => say("no label", element));
}

// Marks of right-to-left may turn what is in the same isolated part alone.
function turns() {
  const walker = document.createTreeWalker(document.body, NodeFilter.SHOW_TEXT);
  while (walker.nextNode()) {
    const element = walker.currentNode.parentElement;
    if (/[\u202a-\u202e]/.test(walker.currentNode.data) && !getComputedStyle(element).unicodeBidi.startsWith("isolate")
      && !element.matches("option, title, p")) {
      say("turns what is around it", element);
    }
  }
}

[texts, edges, sizes, structure, references, parts, turns].forEach(look => look());
return wrong;
