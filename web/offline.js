// Keeps the files of a site in the browser, so that it opens without a network. tools/make_site.py puts before this the `edition`, a
// name that changes with the files, and the `files` themselves.

/* global edition, files */
const cacheName = `${registration.scope} ${edition}`;

/** Stores all files of this edition, and takes over at once. */
async function install() {
  const cache = await caches.open(cacheName);
  await cache.addAll(files.map((file) => new Request(file, { cache: "reload" })));
  await skipWaiting();
}

/** Forgets the editions before. Another site of the same origin has another scope. */
async function activate() {
  const names = await caches.keys();
  const older = names.filter((it) => it.startsWith(`${registration.scope} `) && it !== cacheName);
  await Promise.all(older.map((it) => caches.delete(it)));
  await clients.claim();
}

/** Answers a request from the stored files, or by the network. */
async function answer(request) {
  const cache = await caches.open(cacheName);
  return (await cache.match(request, { ignoreSearch: true })) ?? fetch(request);
}

addEventListener("install", (event) => event.waitUntil(install()));
addEventListener("activate", (event) => event.waitUntil(activate()));
addEventListener("fetch", (event) => event.request.method === "GET" && event.respondWith(answer(event.request)));
