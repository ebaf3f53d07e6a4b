// Keeps the pages and their files for a phone without network. What the hall itself answers is never kept.
const KEPT = "pages-1";
const FILES = ["hall.css", "icon.svg", "table.js", "elements.js", "entry.js", "queue.js", "told.js", "wire.js"];

async function kept() {
  const cache = await caches.open(KEPT);
  await cache.addAll(["/table", ...FILES.map((name) => `/files/${name}`)]);
  await skipWaiting();
}

addEventListener("install", (event) => event.waitUntil(kept()));
addEventListener("activate", (event) => event.waitUntil(clients.claim()));

async function fresh(request) {
  const cache = await caches.open(KEPT);
  try {
    const answer = await fetch(request);
    if (answer.ok) {
      await cache.put(request, answer.clone());
    }
    return answer;
  } catch (fault) {
    const kept = await cache.match(request);
    if (kept) {
      return kept;
    }
    throw fault;
  }
}

addEventListener("fetch", (event) => {
  const address = new URL(event.request.url);
  if (event.request.method === "GET" && address.origin === location.origin && !address.pathname.startsWith("/api/")) {
    event.respondWith(fresh(event.request));
  }
});
