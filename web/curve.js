// The picture of what is told by turn: a curve for each hand or discard, which has its sign at its end, so that nothing is told by colour alone.

import { make } from "./elements.js";
import { range } from "./tiles.js";
import { phrase } from "./words.js";

const SVG = "http://www.w3.org/2000/svg";
// The picture is drawn on so many units, and the plot lies between these.
const [WIDTH, HEIGHT, LEFT, RIGHT, TOP, BOTTOM] = [320, 230, 40, 254, 12, 204];
// Where the signs begin.
const SIGNS = RIGHT + 10;
// A row of discards on the table.
const ROW = 6;
// The signs of two curves are so far apart, and no more of them have room.
const APART = 21;
const MOST_SIGNS = 10;
const MOST_TILES = 3;
// Below the first curve so many differ by their dashes.
const DASHES = 5;

function drawn(name, properties, ...children) {
  const element = document.createElementNS(SVG, name);
  for (const [key, value] of Object.entries(properties)) element.setAttribute(key, String(value));
  element.append(...children);
  return element;
}

function line(className, points) {
  return drawn("polyline", { class: className, points: points.map((place) => place.map((it) => it.toFixed(1)).join(",")).join(" ") });
}

// A word of the picture at this place; words keep their size where the picture is smaller.
function wordAt([x, y], className, ...children) {
  const element = make("span", { class: className }, ...children);
  Object.assign(element.style, { insetInlineStart: `${(100 * x) / WIDTH}%`, insetBlockStart: `${(100 * y) / HEIGHT}%` });
  return element;
}

// None, a half and all of the scale, and the numbers of some turns.
function axisWords(top, last, placeOf, words) {
  const turns = [1, ...range(2, last - 2).filter((turn) => turn % ROW === 0), last];
  const below = (turn) => wordAt([placeOf(turn, 0)[0], BOTTOM + 14], "turn", String(turn));
  const beside = (value) => wordAt([LEFT - 5, placeOf(1, value)[1]], "height", words(value));
  return [...turns.map(below), ...[0, top / 2, top].map(beside), wordAt([WIDTH, BOTTOM + 14], "unit", phrase("draws"))];
}

// The heights of signs whose curves end at these heights, from above to below: each at its curve, or, of those that would meet, as near as
// there is room.
function apart(ends) {
  const groups = [];
  const placed = (heights) => {
    const room = (heights.length - 1) * APART;
    const middle = heights.reduce((sum, it) => sum + it, 0) / heights.length;
    return { heights, first: Math.max(TOP, Math.min(BOTTOM - room, middle - room / 2)) };
  };
  for (const end of ends) {
    let group = placed([end]);
    while (groups.length > 0 && groups.at(-1).first + groups.at(-1).heights.length * APART > group.first) {
      group = placed([...groups.pop().heights, ...group.heights]);
    }
    groups.push(group);
  }
  return groups.flatMap(({ heights, first }) => heights.map((_, at) => first + at * APART));
}

// The sign of a curve, at this height of the picture: a word, or the first of its tiles and how many more there are.
function signAt(height, sign) {
  const isLong = sign.length > MOST_TILES;
  const more = isLong ? [`+${sign.length - MOST_TILES + 1}`] : [];
  return wordAt([SIGNS, height], "sign", ...sign.slice(0, isLong ? MOST_TILES - 1 : MOST_TILES), ...more);
}

// Each curve has its values by turn, from the first on as far as they are known, its value by the last turn, and its sign: elements or
// words. The curves stand in the order of their last values, the greatest first. The scale has the values up to which it may go, and says
// one in words.
export function curvePicture(curves, last, name, { tops, words }) {
  const most = Math.max(...curves.map((curve) => curve.last));
  const top = tops.find((it) => it >= most);
  const placeOf = (turn, value) => [LEFT + ((RIGHT - LEFT) * (turn - 1)) / Math.max(1, last - 1), BOTTOM - ((BOTTOM - TOP) * value) / top];
  const ends = curves.map((curve) => placeOf(last, curve.last));
  const heights = apart(ends.slice(0, MOST_SIGNS).map(([, y]) => y));
  const grid = [0, top / 2, top].map((value) => line("grid", [placeOf(1, value), placeOf(last, value)]));
  const leads = heights.map((height, at) => line("lead", [ends[at], [SIGNS - 2, height]]));
  const lines = curves.map(({ values }, at) => line(`curve curve-${at && 1 + ((at - 1) % DASHES)}`, values.map((value, before) => placeOf(before + 1, value))));
  const dots = ends.map(([x, y]) => drawn("circle", { cx: x, cy: y, r: 2.5 }));
  const picture = drawn("svg", { viewBox: `0 0 ${WIDTH} ${HEIGHT}`, "aria-hidden": "true" }, ...grid, ...leads, ...lines.reverse(), ...dots);
  const signs = heights.map((height, at) => signAt(height, curves[at].sign));
  return make("div", { class: "picture", role: "img", "aria-label": name }, picture, ...axisWords(top, last, placeOf, words), ...signs);
}
