// Questions of a player, and the room that the module is lent for the hands of one that asks for chances.

import { calls, LINE, placeOf } from "./module.js";
import { AT, put, read } from "./texts.js";

// So many hands have room where there is too little; no list has more than the last. Each takes a place and its rows of both sorts.
const HANDS = [512, 5120, 65535];
const PLACE = 1128;
const ROWS = 1216;
const WORTHS = 456;
let lent = { hands: 0, places: LINE, rows: LINE, worths: LINE };

function askStudy(line) {
  const [places, rows, worths, hands] = [lent.places, lent.rows, lent.worths, lent.hands].map(BigInt);
  const needed = calls.riichi_study(AT[0], BigInt(put(line)), places, hands, rows, hands, worths, hands, AT[1], AT[2]);
  return needed > 0n ? JSON.parse(read(needed)) : null;
}

export function study(line) {
  let told = askStudy(line);
  for (const hands of HANDS) {
    if (told?.code !== "places") break;
    if (hands > lent.hands) {
      const places = placeOf(hands * (PLACE + ROWS + WORTHS));
      const rows = places + hands * PLACE;
      lent = { hands, places, rows, worths: rows + hands * ROWS };
      told = askStudy(line);
    }
  }
  if (told?.code === "places") throw new RangeError("the hand may come to more hands than any list has");
  return told;
}
