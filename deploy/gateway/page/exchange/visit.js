// @ts-check
// One visit to a page: what it repeats and what it asks for ends with it.
import { tell } from "../elements/news.js";
import { ENDED } from "../time/moments.js";
import { say } from "../words/language.js";

// After so many reads that failed, who looks on is told that what is shown may be old.
const FAILED = 3;

export class Visit {
  /**
   * `kept` is what the page noted when its entry of the browser's history was left: whoever comes back finds it so.
   * @param {import("./history.js").Noted} [kept]
   */
  constructor(kept = {}) {
    this.kept = kept;
    this.ending = new AbortController();
  }

  get signal() {
    return this.ending.signal;
  }

  get isOver() {
    return this.signal.aborted;
  }

  end() {
    this.ending.abort();
  }

  /**
   * Does some work each time that a countdown of the page has run out.
   * @param {() => void} work
   */
  onEnd(work) {
    document.addEventListener(ENDED, work, { signal: this.signal });
  }

  /**
   * Shows what is read, reads it again and again, and shows it anew where an end comes meanwhile: that changes how an
   * item stands, and nothing that is read.
   * @template Found
   * @param {number} seconds @param {() => Promise<Found>} look @param {(found: Found) => void} show
   */
  async follow(seconds, look, show) {
    let found = await look();
    show(found);
    this.onEnd(() => show(found));
    this.repeat(() => seconds, async () => {
      found = await look();
      show(found);
    });
  }

  /**
   * Does work again and again, each time so many seconds after the last. It rests while nobody sees the page, and begins
   * at once when somebody does.
   * @param {() => number} seconds @param {() => Promise<any>} work
   */
  repeat(seconds, work) {
    /** @type {ReturnType<typeof setTimeout> | undefined} */
    let timer;
    let isAtWork = false;
    let failed = 0;
    const fails = () => {
      failed += 1;
      if (failed === FAILED && !this.isOver) {
        tell(say("page.old"));
      }
    };
    const go = async () => {
      clearTimeout(timer);
      if (this.isOver || isAtWork || document.hidden) {
        return;
      }
      isAtWork = true;
      // A read that failed is made again in its turn.
      await work().then(() => {
        failed = 0;
      }, fails);
      isAtWork = false;
      timer = setTimeout(go, 1000 * seconds());
    };
    document.addEventListener("visibilitychange", go, { signal: this.signal });
    timer = setTimeout(go, 1000 * seconds());
  }
}
