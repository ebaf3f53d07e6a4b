// The 34 kinds of tile, and their notation. A tile is two letters, as in a line: "1m", "7z", "0p" for a red five.

export const SUITS = [..."mpsz"];
export const KINDS = SUITS.flatMap((suit) => range(1, suit === "z" ? 7 : 9).map((digit) => digit + suit));

export function range(first, last) {
  return Array.from({ length: last - first + 1 }, (_, step) => first + step);
}

// The kind of a tile: a red five is a five.
export function kindOf(tile) {
  return tile[0] === "0" ? `5${tile[1]}` : tile;
}

export function isFive(tile) {
  return kindOf(tile)[0] === "5" && tile[1] !== "z";
}

export function isRed(tile) {
  return tile[0] === "0";
}

// The tile of a kind; of a five the red one where that is wanted.
export function tileOf(kind, isRed) {
  return isRed && isFive(kind) ? `0${kind[1]}` : kind;
}

// The place of each tile in the order of a hand; a red five stands behind the other fives.
const ORDER_OF_TILES = new Map(KINDS.flatMap((kind, at) => [[kind, at], ...(isFive(kind) ? [[tileOf(kind, true), at + 0.5]] : [])]));

export function sorted(tiles) {
  return [...tiles].sort((one, other) => ORDER_OF_TILES.get(one) - ORDER_OF_TILES.get(other));
}

// Tiles like those that are wanted, taken from others, and what is left of these; a red five stands for a five that isn't there,
// and the other way round. Null where one isn't there either way.
export function parted(tiles, wanted) {
  const left = [...tiles];
  const found = [];
  for (const tile of wanted) {
    const same = left.indexOf(tile);
    const at = same >= 0 ? same : left.findIndex((other) => kindOf(other) === kindOf(tile));
    if (at < 0) return null;
    found.push(...left.splice(at, 1));
  }
  return { found, left };
}

// The text of tiles in their order, one letter for each suit.
export function textOf(tiles) {
  return SUITS.map((suit) => {
    const digits = sorted(tiles).filter((tile) => tile[1] === suit).map((tile) => tile[0]);
    return digits.length > 0 ? digits.join("") + suit : "";
  }).join("");
}

// The tiles of a text, in its order; null where it isn't spelled as tiles.
export function tilesIn(text) {
  if (!/^([0-9]+[mps]|[1-7]+z)+$/.test(text)) return null;
  return [...text.matchAll(/([0-9]+)([mpsz])/g)].flatMap(([, digits, suit]) => [...digits].map((digit) => digit + suit));
}

// How many tiles of this kind there are among these.
export function countOf(kind, tiles) {
  return tiles.filter((tile) => kindOf(tile) === kind).length;
}
