// The page without a network, once it was loaded where it is served: files come from the network, and from what was kept of them where that
// isn't there. What the service answers isn't kept.

const KEPT = "board";

self.addEventListener("install", () => self.skipWaiting());
self.addEventListener("activate", (event) => event.waitUntil(self.clients.claim()));
self.addEventListener("fetch", (event) => {
  const { request } = event, url = new URL(request.url);
  if (request.method !== "GET" || url.origin !== self.location.origin || /\/(about\.json|class)(\/|$)/.test(url.pathname)) return;
  event.respondWith(answer(request));
});

async function answer(request) {
  const kept = await caches.open(KEPT);
  try {
    const told = await fetch(request);
    if (told.ok) await kept.put(request, told.clone());
    return told;
  } catch (fault) {
    const there = await kept.match(request, { ignoreSearch: true });
    if (there) return there;
    throw fault;
  }
}
