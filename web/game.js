// The mode Game: which screen is shown, and that all of it is kept.

import { byId, isWide } from "./elements.js";
import { winNow } from "./draft.js";
import { evening, takeUpEvening } from "./evening.js";
import { count } from "./gamecount.js";
import { dealScreen, dealsScreen } from "./gamedeals.js";
import { needScreen } from "./gameneed.js";
import { chomboScreen, drawScreen, penaltyScreen, plainScreen, standsScreen } from "./gameoutcomes.js";
import { onTap, tapped } from "./gameparts.js";
import { gamesScreen, rulesScreen, setupScreen } from "./gamesetup.js";
import { sheetScreen, textScreen } from "./gamesheet.js";
import { kindsScreen, moreScreen, tableScreen } from "./gametable.js";
import { listenToTiles, showTiles, tilesFields, tilesHead } from "./gametiles.js";
import { padScreen } from "./gamewin.js";
import { showForm } from "./form.js";
import { state, takeForth } from "./state.js";

const SCREENS = {
  games: gamesScreen, setup: setupScreen, text: textScreen, table: tableScreen, more: moreScreen, kinds: kindsScreen, win: padScreen,
  draw: drawScreen, plain: plainScreen, chombo: chomboScreen, penalty: penaltyScreen, stands: standsScreen, deals: dealsScreen,
  deal: dealScreen, need: needScreen, sheet: sheetScreen, rules: rulesScreen,
};
let shownScreen = "";

function hasTiles() {
  return evening.screen === "win" && winNow(evening.draft).way === "tiles";
}

// Puts parts into their places. The focus stays with its control, and goes to the head of another screen.
function showParts(parts, beside = []) {
  const places = [byId("game"), byId("game-fields")];
  const find = (name) => places.map((it) => it.querySelector(`[data-key="${CSS.escape(name)}"]`)).find(Boolean);
  const at = places.some((it) => it.contains(document.activeElement)) ? document.activeElement.dataset.key : undefined;
  const open = [...byId("game").querySelectorAll("details[open] > summary")].map((it) => it.dataset.key);
  byId("game").replaceChildren(...parts);
  byId("game-fields").replaceChildren(...beside);
  for (const name of open) find(name)?.parentElement.setAttribute("open", "");
  const isSame = shownScreen === byId("game").dataset.screen;
  if (isSame && at !== undefined) find(at)?.focus({ preventScroll: true });
  if (!isSame && shownScreen !== "") byId("game").querySelector("h2")?.focus({ preventScroll: true });
  if (!isSame) scrollTo(0, 0);
  shownScreen = byId("game").dataset.screen;
}

export function showGame() {
  if (state.mode !== "game") return;
  const isTapped = hasTiles();
  byId("game").dataset.screen = isTapped ? "tiles" : evening.screen;
  document.documentElement.dataset.game = byId("game").dataset.screen;
  byId("one").hidden = !isTapped;
  if (!isTapped) putFormAway();
  if (isTapped) showTiles(() => showParts(tilesHead(), tilesFields()));
  else showParts(SCREENS[evening.screen]());
}

// The form isn't in sight any more: it is shown anew with its tab.
function putFormAway() {
  if (state.aside === null) return;
  takeForth();
  byId("answer").replaceChildren();
}

export function leaveGame() {
  delete document.documentElement.dataset.game;
  shownScreen = "";
  if (state.aside === null) return;
  takeForth();
  showForm();
}

export function listenToGame() {
  onTap(showGame);
  listenToTiles();
  isWide.addEventListener("change", showGame);
  byId("count").addEventListener("click", tapped(count));
  takeUpEvening();
}

