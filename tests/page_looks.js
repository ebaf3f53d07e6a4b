// What tests/page_looks.py measures in the page: each function gives a list of what isn't as it should be.

// After a resize WebKit tells of visibility by the layout before it, until a box is asked for: then one that is hidden now had none.
const isShown = (it) => it.getBoundingClientRect() && it.checkVisibility();
const named = (it) => it.getAttribute("aria-label") ?? it.textContent.trim().slice(0, 20);
const boxOf = (name) => document.querySelector(name).getBoundingClientRect();

const TYPED = "input[type=text], input[type=number], textarea";
const CHOSEN = ".option input:checked + span, button[aria-pressed=true]";
const UNCHOSEN = ".option input:not(:checked) + span, button[aria-pressed=false]";

const parts = (colour) => colour.match(/[0-9.]+/g).map(Number);

function light(colour) {
  const [red, green, blue] = colour.map((it) => (it / 255 <= 0.04045 ? it / 255 / 12.92 : ((it / 255 + 0.055) / 1.055) ** 2.4));
  return 0.2126 * red + 0.7152 * green + 0.0722 * blue;
}

function ratio(one, other) {
  const [lighter, darker] = [light(one), light(other)].sort((x, y) => y - x);
  return (lighter + 0.05) / (darker + 0.05);
}

// The colour on which an element stands.
function ground(it) {
  if (!it) return [255, 255, 255];
  const colour = parts(getComputedStyle(it).backgroundColor);
  return colour.length < 4 || colour[3] > 0 ? colour : ground(it.parentElement);
}

// Text with a contrast under 4.5 to what is below it; fields whose edge has one under 3; and what is chosen, where its ground has one
// under 3 to that of a choice beside it. A button is known by its words.
function pale() {
  const found = [];
  for (const it of document.querySelectorAll("body *")) {
    if (!isShown(it) || it.closest("svg, .unseen, script, noscript, :disabled")) continue;
    const style = getComputedStyle(it);
    const hasText = [...it.childNodes].some((node) => node.nodeType === Node.TEXT_NODE && node.data.trim()) || it.matches(TYPED);
    if (hasText && ratio(parts(style.color), ground(it)) < 4.5) found.push(`text ${named(it)}`);
    const isField = it.matches(`select, ${TYPED}`);
    if (isField && ratio(parts(style.borderBlockEndColor), ground(it.parentElement)) < 3) found.push(`edge of ${named(it)}`);
    const others = it.matches(CHOSEN) ? [...(it.closest(".choice, .group, .seats")?.querySelectorAll(UNCHOSEN) ?? [])] : [];
    if (others.some((other) => ratio(ground(it), ground(other)) < 3)) found.push(`choice of ${named(it)}`);
  }
  return found;
}

// Curves and the dots at their ends with a contrast under 3 to what is below them.
function faint() {
  const colourOf = (it) => getComputedStyle(it)[it.matches("circle") ? "fill" : "stroke"];
  return [...document.querySelectorAll(".curve, circle")].filter((it) => ratio(parts(colourOf(it)), ground(it.closest(".picture"))) < 3).map((it) => it.outerHTML);
}

// Words that don't fit into what they stand in.
function cut() {
  const controls = "button:not(.on-tile, .meld button), .button, .option span, label, legend";
  const isCut = (it) =>
    it.matches(".change")
      ? it.offsetWidth > it.parentElement.clientWidth
      : it.scrollWidth > it.clientWidth + 1 || it.scrollHeight > it.clientHeight + 1;
  return [...document.querySelectorAll(`${controls}, dt, dd, h2, h3, .yaku li, .headline, .raw, .four .change`)]
    .filter((it) => isShown(it) && !it.matches(".heard") && it.clientWidth > 0 && isCut(it))
    .map((it) => `${named(it)}: ${it.scrollWidth} x ${it.scrollHeight} in ${it.clientWidth} x ${it.clientHeight}`);
}

// What is touched and is smaller than 44 pixels in a direction.
function small() {
  const dialog = document.querySelector("dialog[open]") ?? document;
  return [...dialog.querySelectorAll(`button, .button, .option, a, select, summary, ${TYPED}`)]
    .filter(isShown)
    .map((it) => [named(it), it.getBoundingClientRect()])
    .filter(([, box]) => box.width < 43.99 || box.height < 43.99)
    .map(([name, box]) => `${name}: ${box.width.toFixed(1)} x ${box.height.toFixed(1)}`);
}

// Controls whose name doesn't hold the words that are seen on them.
function otherwiseNamed() {
  return [...document.querySelectorAll("button[aria-label], input[aria-label]")]
    .map((it) => [it.getAttribute("aria-label"), (it.closest("label") ?? it).textContent.trim()])
    .filter(([name, seen]) => /\p{L}/u.test(seen) && !name.toLowerCase().includes(seen.toLowerCase()));
}

// What of a win can't be reached without scrolling: what is above or below the screen, or under the bar.
function outOfReach() {
  const choices = ["by][value=ron", "by][value=tsumo", "seat][value=E", "seat][value=N", "round][value=E", "round][value=N"];
  const inputs = [...choices, 'riichi][value="1"', 'riichi][value="2"'].map((it) => `label:has(input[name=${it}])`);
  const tiles = ["1m", "9m", "7z"].map((kind) => `#picker [data-kind='${kind}']`);
  const targets = ["chi", "ankan", "dora"].map((name) => `[data-target=${name}]`);
  return ["#tray", "#back", "#answer", "#new", "#why", ...inputs, ...tiles, ...targets].filter((name) => {
    const { top, bottom, left, right } = boxOf(name);
    // Beside the choices of a whole hand the bar covers nothing.
    const isBelow = document.getElementById("one").dataset.full !== "yes";
    const end = isBelow && !document.querySelector(name).closest("#bar") ? boxOf("#bar").top : innerHeight;
    return top < -0.5 || bottom > end + 2.5 || left < -0.5 || right > innerWidth + 0.5;
  });
}

// What stands below the screen of the hand, the answer and its buttons.
function below() {
  return ["#tray", "#answer .headline", "#why", "#new"].filter((name) => boxOf(name).bottom > innerHeight + 0.5);
}

// Where the answer of a wide screen isn't beside the hand, or ends above the tiles.
function notBeside() {
  const [tray, picker, bar] = ["#tray-box", "#picker", "#bar"].map(boxOf);
  const rows = [["left", bar.left > tray.right], ["top", Math.abs(bar.top - tray.top) < 4], ["bottom", bar.bottom >= picker.bottom]];
  return rows.filter(([, isSo]) => !isSo).map(([name]) => name);
}

// The width of a page that is wider than the screen.
function tooWide() {
  const { scrollWidth, clientWidth } = document.documentElement;
  return scrollWidth > clientWidth ? [scrollWidth] : [];
}

// Words of controls and of the answer's head that stand in two lines.
function broken() {
  const range = document.createRange();
  const isBroken = (node, { index, 0: word }) => {
    range.setStart(node, index);
    range.setEnd(node, index + word.length);
    return new Set([...range.getClientRects()].map((box) => Math.round(box.top))).size > 1;
  };
  const wordsOf = (node) => [...node.data.matchAll(/\p{L}+/gu)].filter((word) => isBroken(node, word)).map(([word]) => word);
  return [...document.querySelectorAll("button:not(.on-tile), .button, .option span, label, legend, .headline")]
    .filter(isShown)
    .flatMap((it) => [...it.childNodes].filter((node) => node.nodeType === Node.TEXT_NODE).flatMap(wordsOf));
}

// Where the focus is: its place in the document, whether it is seen and not below something else, and whether it has an outline.
function focus() {
  const it = document.activeElement;
  const shown = it.matches(".option input, .unseen") ? it.closest("label") : it;
  const box = shown.getBoundingClientRect();
  const top = document.elementFromPoint(box.x + box.width / 2, Math.min(innerHeight - 1, box.y + Math.min(box.height, 40) / 2));
  const mark = it.matches(".option input") ? it.nextElementSibling : shown;
  return {
    at: [...document.querySelectorAll("*")].indexOf(it),
    name: it === document.body ? null : it.id || it.name || it.getAttribute("aria-label") || it.textContent,
    seen: top !== null && (shown.contains(top) || top.contains(shown)),
    marked: getComputedStyle(mark).outlineStyle !== "none",
  };
}

// The most space between lines, letters and words that a reader may set.
function space() {
  const sheet = new CSSStyleSheet();
  sheet.replaceSync(`
    * { line-height: 1.5 !important; letter-spacing: 0.12em !important; word-spacing: 0.16em !important }
    p { margin-block-end: 2em !important }`);
  document.adoptedStyleSheets = [sheet];
}
