// @ts-check
// Puts the two forms of signing in into the city's language. Without a script they work too, in English.
import { putWords, readCity } from "./exchange/city.js";

const show = () => document.body.classList.add("worded");

readCity().then(putWords).then(show, show);
