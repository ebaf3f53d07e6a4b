// A second copy of what is kept, on the disk at once: a browser writes its localStorage there some seconds later, and where the
// power goes before that, or the browser is killed, those seconds would be lost.

const DATABASE = "riichi_desk";
const STORE_NAME = "kept";
const COUNT = "riichi_desk.count";

let database = null;
let changes = 0;

function asked(request) {
  return new Promise((done, fail) => {
    request.onsuccess = () => done(request.result);
    request.onerror = () => fail(request.error);
  });
}

async function opened() {
  const request = indexedDB.open(DATABASE, 1);
  request.onupgradeneeded = () => request.result.createObjectStore(STORE_NAME);
  const found = await asked(request);
  found.onversionchange = () => found.close();
  return found;
}

function rows(mode) {
  return database.transaction(STORE_NAME, mode, { durability: "strict" }).objectStore(STORE_NAME);
}

// Writes what was kept under a key, after each change; null where it is gone. Each change has a number, in both copies.
export function noteKept(key, text) {
  changes += 1;
  try {
    localStorage.setItem(COUNT, String(changes));
    database && rows("readwrite").put({ count: changes, text }, key);
  } catch {
    // There is one copy then, or none.
  }
}

// Gives the localStorage back what it has lost: the changes whose number it doesn't know.
export async function bringBackLost() {
  try {
    database = await opened();
    const [keys, found] = await Promise.all([asked(rows("readonly").getAllKeys()), asked(rows("readonly").getAll())]);
    changes = Number(localStorage.getItem(COUNT)) || 0;
    found.forEach(({ count: number, text }, at) => {
      if (number <= changes) return;
      if (text === null) localStorage.removeItem(keys[at]);
      else localStorage.setItem(keys[at], text);
    });
    changes = Math.max(changes, ...found.map((row) => row.count));
    localStorage.setItem(COUNT, String(changes));
  } catch {
    // This browser keeps no second copy.
  }
}
