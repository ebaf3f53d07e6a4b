// Elements of a page. Text is text, and never markup.

/** An element with attributes, what happens where it is clicked, and children; a child that is a text stands as text. */
export function made(name, { on, ...attributes } = {}, ...children) {
  const element = document.createElement(name);
  for (const [key, value] of Object.entries(attributes)) {
    if (value !== undefined && value !== false) {
      element.setAttribute(key, value === true ? "" : value);
    }
  }
  if (on) {
    element.addEventListener("click", on);
  }
  element.append(...children.filter((child) => child !== null && child !== undefined));
  return element;
}

/** A button. */
export function button(words, on, attributes = {}) {
  return made("button", { type: "button", on, ...attributes }, words);
}

/** The element of that name. */
export function by(id) {
  return document.getElementById(id);
}

/** Puts these children in the place of those that an element has; with none it is hidden where `hides` says so. */
export function fill(element, children, hides = false) {
  element.replaceChildren(...children.filter((child) => child !== null && child !== undefined));
  if (hides) {
    element.hidden = children.length === 0;
  }
}

/** A QR code of rows of `1`, a dark square, and `0`, with its empty edge. */
export function code(rows) {
  const space = "http://www.w3.org/2000/svg";
  const svg = document.createElementNS(space, "svg");
  svg.setAttribute("viewBox", `-4 -4 ${rows.length + 8} ${rows.length + 8}`);
  svg.setAttribute("role", "img");
  const path = document.createElementNS(space, "path");
  const squares = rows.flatMap((row, down) => [...row].map((square, across) => (square === "1" ? `M${across} ${down}h1v1h-1z` : "")));
  path.setAttribute("d", squares.join(""));
  path.setAttribute("fill", "currentColor");
  svg.append(path);
  return svg;
}
