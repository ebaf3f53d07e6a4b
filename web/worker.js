// Keeps all files of the page from the first visit on, so that it opens without a network. Another version is another store: it is
// filled while the old one answers, and takes over when no page of the old one is open.

const STORE = `riichi_desk ${"VERSION"}`;
const FILES = ["FILES"];

addEventListener("install", (event) => {
  event.waitUntil(caches.open(STORE).then((store) => store.addAll(FILES.map((file) => new Request(file, { cache: "reload" })))));
});

addEventListener("activate", (event) => {
  const isOld = (name) => name.startsWith("riichi_desk ") && name !== STORE;
  event.waitUntil(
    caches
      .keys()
      .then((names) => Promise.all(names.filter(isOld).map((name) => caches.delete(name))))
      .then(() => clients.claim()),
  );
});

addEventListener("fetch", (event) => {
  if (event.request.method !== "GET") return;
  const find = caches.open(STORE).then((store) => store.match(event.request, { ignoreSearch: true }));
  event.respondWith(find.then((found) => found ?? fetch(event.request)));
});
