// @ts-check
// What the house keeps of a sale: its rate of the price in ten-thousandths, rounded down.

/** @param {number} price @param {number} rate @returns {number} */
export const feeOf = (price, rate) => Math.floor(price * rate / 10_000);
