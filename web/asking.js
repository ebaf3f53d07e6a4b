// What takes long is asked of the library in a worker, line by line, so that the page goes on meanwhile. The worker ends with the last line,
// or where the part of the page that shows what it tells is closed or gone.

import { state } from "./state.js";

// The lines that are asked, what was told of each so far, and the part that shows it.
const question = { lines: [], told: [], worker: null, hasFailed: false, isToShow: false, part: null, show: () => {} };
let address = null;

// The script of the worker, inside this page or beside it.
function addressOfWorker() {
  const inside = document.getElementById("chances-worker");
  address ??= inside ? URL.createObjectURL(new Blob([inside.textContent], { type: "text/javascript" })) : "chances-worker.js";
  return address;
}

function endAsking() {
  question.worker?.terminate();
  question.worker = null;
}

export function endUnseen() {
  if (!question.part?.isConnected || !question.part.open) endAsking();
}

// Shows what was told by the next picture of the screen: answers may come quicker than they are drawn.
function showSoon() {
  if (question.isToShow) return;
  question.isToShow = true;
  requestAnimationFrame(() => {
    question.isToShow = false;
    question.show(question);
  });
}

function giveUp() {
  endAsking();
  question.hasFailed = true;
  showSoon();
}

function takeTold({ data, target }) {
  if (target !== question.worker) return;
  question.told.push(data);
  if (question.told.length === question.lines.length) endAsking();
  endUnseen();
  showSoon();
}

function askOn() {
  try {
    question.worker = new Worker(addressOfWorker());
    Object.assign(question.worker, { onmessage: takeTold, onmessageerror: giveUp, onerror: giveUp });
    question.worker.postMessage({ module: state.desk.module, lines: question.lines.slice(question.told.length) });
  } catch {
    giveUp();
  }
}

// Asks these lines, or goes on with them where they were asked last. `show` is given what was told of them, now and whenever it is more.
export function askFor(part, lines, show) {
  if (lines.join() !== question.lines.join()) {
    endAsking();
    Object.assign(question, { lines, told: [], hasFailed: false });
  }
  Object.assign(question, { part, show });
  if (question.worker === null && !question.hasFailed && question.told.length < lines.length) askOn();
  show(question);
}
