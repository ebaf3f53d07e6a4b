// How numbers are written, everywhere on the page.

import { language } from "./words.js";

const WITH_COMMA = ["de", "fr", "pl"];

// A number of points, with a thin space before its thousands.
export function points(number) {
  return String(Math.abs(number)).replace(/\B(?=([0-9]{3})+$)/g, "\u202f").replace(/^/, number < 0 ? "\u2212" : "");
}

// A change, with its sign; a 0 has none.
export function signed(number) {
  return number > 0 ? `+${points(number)}` : points(number);
}

// A number with one decimal.
function decimal(number) {
  const text = number.toFixed(1);
  return WITH_COMMA.includes(language()) ? text.replace(".", ",") : text;
}

// Final points: thousands with one decimal.
export function thousands(number) {
  const sign = number > 0 ? "+" : number < 0 ? "\u2212" : "";
  return `${sign}${decimal(Math.abs(number) / 1000)}`;
}

// A chance in percent, as the library tells it: a part of a whole, both texts of digits, of which only nothing is 0, and only all is 100; or
// to four digits, of which the last is rounded.
export function percent({ part, whole, chance }) {
  if (part === "0" || chance === 0) return "0";
  if (part === whole && (part !== undefined || chance === 1)) return "100";
  const tenths = part === undefined ? Math.floor((Math.round(10000 * chance) + 5) / 10) : Number((BigInt(part) * 2000n / BigInt(whole) + 1n) / 2n);
  if (tenths === 0) return `<${decimal(0.1)}`;
  return tenths === 1000 ? `>${decimal(99.9)}` : decimal(tenths / 10);
}
