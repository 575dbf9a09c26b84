// What the interface answers, as docs/HTTP.md has it, and what the page's modules hand to each other. It is for the type
// checker alone: no browser reads it.

type State = "open" | "sold" | "unsold" | "settled";

/** An item as lists show it. */
interface Item {
  item: number;
  category: number;
  seller: number;
  title: string;
  state: State;
  price: number;
  count: number;
  start: number;
  end: number;
  closed: number | null;
  leader: number | null;
  buy_now: number | null;
  met: boolean | null;
}

/** An item as its own page and the house's lists have it. */
interface WholeItem extends Item {
  edition: number;
  floor: number | null;
  lot: string;
  text: string;
}

interface Bid {
  item: number;
  leading: boolean;
  maximum: number;
  mine: number;
  price: number;
  state: State;
}

/** An item, and the caller's own bid for it. */
interface Stand {
  item: WholeItem;
  bid: Bid | undefined;
}

interface Question {
  item: number;
  asker: number;
  number: number;
  text: string;
  answer: string | null;
}

interface Member {
  member: number;
  name: string;
  plus: number;
  zero: number;
  minus: number;
}

interface Category {
  category: number;
  name: string;
}

interface Feedback {
  item: number;
  from: number;
  to: number;
  rating: number;
  text: string;
}

interface Line {
  day: string;
  item: number;
  role: "sell" | "buy";
  other: number;
  price: number;
  fee: number;
  net: number;
}

interface Statement {
  member: number;
  lines: Line[];
  sold: number;
  fees: number;
  net: number;
  bought: number;
}

interface House {
  members: number;
  items: number;
  categories: number;
  clock: number;
  rate: number;
  zone: string;
}

interface Band {
  at: number;
  step: number;
}

/** Why something was refused: the body of an answer, or a word of the page's own where none came. */
interface Fault {
  error: string;
  why?: string;
  field?: string;
  floor?: number;
}

/** What a refusal's sentence goes by: what was tried, and what was shown when it was. */
interface Tried {
  tried?: string;
  floor?: number | null;
  maximum?: number;
  isRead?: boolean;
}

/** What an element may be given. A condition that didn't hold leaves null or false in the place of a child. */
type Content = string | number | Node | null | undefined | false | Content[];

/** What a part of the page shows: a heading, what is above it, and what is below. */
interface Shown {
  title: string;
  mark?: string;
  of?: Content;
  nodes: Content[];
}

type Visit = import("./exchange/visit.js").Visit;

/** Texts by number, each with one in its place where it wasn't read. */
interface TextsByNumber {
  get(number: number): string;
}

type BidsByItem = Map<number, Bid>;
