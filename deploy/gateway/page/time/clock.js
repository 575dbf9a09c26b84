// @ts-check
// The gateway's clock, by which auctions end, as far as its answers tell it.
//
// Each answer has the second of the gateway in `date`, and came between two moments of this machine. So each bounds
// by how much the gateway is ahead of the time that runs here, and all together bound it closely.

// How far two clocks of this machine may drift apart, in milliseconds, before one of them was set or stood still.
const DRIFT = 2000;

let least = -Infinity;
let most = Infinity;
let drift = 0;

/** @param {number} milliseconds */
const seconds = milliseconds => milliseconds / 1000;
const apart = () => Date.now() - performance.now();

/**
 * Notes the date of an answer, and between which moments it came.
 * @param {string | null} date @param {number} sent @param {number} came
 */
export function hear(date, sent, came) {
  const second = seconds(Date.parse(date ?? ""));
  if (Number.isNaN(second)) {
    return;
  }
  const low = second - seconds(came);
  const high = second + 1 - seconds(sent);
  const fits = isKnown() && low <= most && high >= least;
  least = fits ? Math.max(least, low) : low;
  most = fits ? Math.min(most, high) : high;
  drift = apart();
}

// A machine that slept knows the gateway's time no more, until it hears of it again.
export const isKnown = () => most < Infinity && Math.abs(apart() - drift) < DRIFT;

// The latest that it may be at the gateway: so nobody is promised a second that is over.
export const now = () => seconds(performance.now()) + most;

// By how many seconds this machine's clock is ahead of the gateway's, where they are clearly apart.
export function ahead() {
  const difference = Math.round(seconds(Date.now()) - (seconds(performance.now()) + (least + most) / 2));
  return isKnown() && Math.abs(difference) > 5 ? difference : 0;
}
