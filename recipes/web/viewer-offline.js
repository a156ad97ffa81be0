// Keeps viewer.html, beside which it stands on a server, for when there is no network. The page is the server's newest
// wherever that answers within five seconds, and else as it was had last. It keeps nothing else.

const KEPT = 'vp-viewer';
const SECONDS = 5;
const page = new URL(registration.scope).pathname;

async function newest() {
  const kept = await caches.open(KEPT);
  try {
    const found = await fetch(page, { cache: 'no-cache', signal: AbortSignal.timeout(1000 * SECONDS) });
    if (found.ok && !found.redirected) await kept.put(page, found.clone());
    return found;
  } catch {
    return await kept.match(page) ?? Response.error();
  }
}

addEventListener('install', event => {
  skipWaiting();
  event.waitUntil(caches.open(KEPT).then(kept => kept.add(page)));
});
addEventListener('activate', event => event.waitUntil(clients.claim()));
addEventListener('fetch', event => {
  const isPage = event.request.mode === 'navigate' && new URL(event.request.url).pathname === page;
  if (isPage) event.respondWith(newest());
});
