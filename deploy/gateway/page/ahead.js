// @ts-check
// Asks for what the page begins with while its other modules are still on their way: on a slow line that is a second.
import { readAhead } from "./exchange/api.js";
import { OWN } from "./exchange/caller.js";
import { readCity } from "./exchange/city.js";

/** The city's choices and words, without which nothing can be said. */
export const city = readCity();
city.catch(() => {});

readAhead("/house");
readAhead(OWN);
const item = /^#\/item\/(\d+)$/.exec(location.hash)?.[1];
if (item) {
  readAhead(`/items/${item}`);
  readAhead(`/me/bids/${item}`);
}
