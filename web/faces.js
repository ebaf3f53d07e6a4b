// The faces of the tiles, drawn in strokes and dots. A face is 30 wide and 40 high: its index above, its picture below.

import { isRed, KINDS, kindOf } from "./tiles.js";

const NUMERALS = [
  "M7 18H23",
  "M9 14H21M6.5 21H23.5",
  "M8 12H22M9.5 16.5H20.5M6.5 21.5H23.5",
  "M7.5 12.5H22.5V21.5H7.5ZM12.5 12.5Q12.5 17.5 10 18.5M17.5 12.5V17.5H20.5",
  "M8 12H22M14.5 12L12 21.5M9 16.5H19.5V21.5M6 21.5H24",
  "M15 10.5V13M6.5 14.5H23.5M12.5 17L8.5 22M17.5 17L21.5 22",
  "M7 16.5L23 14M13 11V20Q13 21.8 15.5 21.8H22V19.5",
  "M12.5 12Q12 18 7 22M17 11.5Q18 18 23.5 22",
  "M13.5 11Q13.5 19 7.5 22M8 14.5H18.5V20Q18.5 21.8 20.5 21.8H23.5V19.5",
];
const MYRIAD = "M7.5 26H22.5M13.5 26Q13.5 32 9 36M13 29.8H20.5Q20.5 34.5 19 36H17";
const HONOURS = [
  "M7 15H23M9.5 18.5H20.5V26H9.5ZM9.5 22.2H20.5M15 12V36M14.5 26.5Q11.5 31.5 7 34M15.5 26.5Q18.5 31.5 23 34",
  "M7 16H23M15 12V20M8.5 36V20H21.5V35.5H19.5M12.5 22L13.5 24.5M17.5 22L16.5 24.5M11 26.5H19M11.5 30H18.5M15 26.5V35",
  "M6.5 14.5H23.5M8 20H22V34.5H8ZM12.7 14.5V22Q12.7 26 9.5 27.5M17.3 14.5V26Q17.3 27.8 19 27.8H20.8",
  "M12.2 13V35.5M7 21H12M6.5 32.5L12 29.8M18 13V32Q18 34.5 20.5 34.5H23.5V31M23 18L18 22",
  "M7 13H23V35.5H7ZM10 16H20V32.5H10Z",
  "M8 14H13.5Q12.5 19 6.5 22.5M9.5 17L12 19M22.5 13.5L19.5 16.5M17 13Q18.5 19 24 22.5" +
    "M10.5 23.5H20M8 27.5H22M13 23.5V27.5Q12.5 33 8 36M17.5 23.5V33Q17.5 35.5 20 35.5H23V32.5",
  "M8 18H22V27.5H8ZM15 12V36",
];
const HONOUR_INDEXES = ["E", "S", "W", "N", "Wh", "Gr", "Rd"];
const HONOUR_INKS = ["black", "black", "black", "black", "blue", "green", "red"];

// Where the dots of a number stand, in hundredths of the picture's width and height.
const DOTS = [
  [[50, 50]],
  [[50, 18], [50, 82]],
  [[14, 12], [50, 50], [86, 88]],
  [[22, 18], [78, 18], [22, 82], [78, 82]],
  [[18, 14], [82, 14], [50, 50], [18, 86], [82, 86]],
  [[24, 10], [76, 10], [24, 52], [76, 52], [24, 90], [76, 90]],
  [[14, 4], [50, 18], [86, 32], [26, 62], [74, 62], [26, 94], [74, 94]],
  [[24, 4], [76, 4], [24, 34], [76, 34], [24, 65], [76, 65], [24, 96], [76, 96]],
  [[12, 8], [50, 8], [88, 8], [12, 50], [50, 50], [88, 50], [12, 92], [50, 92], [88, 92]],
];
// Where the canes of a number stand, row by row.
const CANES = [
  [[50]],
  [[50], [50]],
  [[50], [22, 78]],
  [[22, 78], [22, 78]],
  [[12, 50, 88], [22, 78]],
  [[12, 50, 88], [12, 50, 88]],
  [[50], [12, 50, 88], [12, 50, 88]],
  [[12, 50, 88], [28, 72], [12, 50, 88]],
  [[12, 50, 88], [12, 50, 88], [12, 50, 88]],
];

// A picture stands for itself, so its inks aren't those of the styles.
const GAP = "#fdfbf4";
const INKS = { black: "#1d1d1f", index: "#55534b", red: "#b01f24", green: "#14633c", blue: "#1d4f91" };

// A stroke of this ink.
function stroke(path, ink, width) {
  const line = `fill="none" stroke="${INKS[ink]}" stroke-width="${width}" stroke-linecap="round" stroke-linejoin="round"`;
  return `<path d="${path}" ${line}/>`;
}

function ring(across, down, radius, ink) {
  const center = `cx="${6 + across * 0.18}" cy="${14 + down * 0.195}"`;
  return `<circle ${center} r="${radius * 0.725}" fill="none" stroke="${INKS[ink]}" stroke-width="${radius * 0.55}"/>`;
}

function circlesFace(number, ink) {
  const radius = [8.5, 5, 4, 3.9, 3.6, 3.5, 2.9, 2.7, 3][number - 1];
  const inks = (across) => (across === 50 && number % 2 === 1 ? "red" : "blue");
  return DOTS[number - 1].map(([across, down]) => ring(across, down, radius, ink ?? inks(across))).join("");
}

function cane(across, top, height, ink) {
  const x = 6 + across * 0.18;
  const middle = top + height / 2;
  const width = height > 20 ? 5 : 3;
  return (
    stroke(`M${x} ${top + width / 2}V${top + height - width / 2}`, ink, width) +
    `<path d="M${x - width * 0.4} ${middle}H${x + width * 0.4}" stroke="${GAP}" stroke-width="0.9"/>`
  );
}

function bamboosFace(number, ink) {
  const rows = CANES[number - 1];
  const height = 25.5 / rows.length - 1;
  const isMiddle = (across) => across === 50 && number % 2 === 1 && number > 3;
  return rows
    .flatMap((row, at) =>
      row.map((across) => cane(across, 11 + at * (height + 1), height, ink ?? (isMiddle(across) ? "red" : "green"))),
    )
    .join("");
}

function charactersFace(number, ink) {
  return stroke(NUMERALS[number - 1], ink ?? "black", 1.9) + stroke(MYRIAD, "red", 1.9);
}

function honourFace(number) {
  return stroke(HONOURS[number - 1], HONOUR_INKS[number - 1], number === 5 ? 1.5 : 2);
}

// The short text above the picture: for those who don't read the pictures.
function indexOf(tile) {
  const text = tile[1] === "z" ? HONOUR_INDEXES[tile[0] - 1] : tile[0];
  const ink = isRed(tile) ? "red" : "index";
  return `<text x="3.5" y="9" font-family="sans-serif" font-size="8" font-weight="700" fill="${INKS[ink]}">${text}</text>`;
}

function face(tile) {
  const [digit, suit] = kindOf(tile);
  const draw = { m: charactersFace, p: circlesFace, s: bamboosFace, z: honourFace }[suit];
  const mark = isRed(tile) ? `<circle cx="24" cy="6" r="2.5" fill="${INKS.red}"/>` : "";
  return indexOf(tile) + mark + draw(Number(digit), isRed(tile) ? "red" : undefined);
}

// Gives the page one picture with all faces side by side, and a rule for each tile, which says where in it its face is: a tile is one
// element, and the browser has one picture to make and not one for each kind.
export function styleFaces() {
  const tiles = [...KINDS, "0m", "0p", "0s"];
  const faces = tiles.map((tile, at) => `<g id="${tile}" transform="translate(${30 * at})">${face(tile)}</g>`).join("");
  const size = `viewBox="0 0 ${30 * tiles.length} 40" preserveAspectRatio="none"`;
  const image = encodeURIComponent(`<svg xmlns="http://www.w3.org/2000/svg" ${size}>${faces}</svg>`);
  const [styles] = document.styleSheets;
  const add = (rule) => styles.insertRule(rule, styles.cssRules.length);
  add(`.face { background-image: url("data:image/svg+xml,${image}"); background-size: ${100 * tiles.length}% 100% }`);
  tiles.forEach((tile, at) => add(`[data-face="${tile}"] { background-position-x: ${(100 * at) / (tiles.length - 1)}% }`));
}
