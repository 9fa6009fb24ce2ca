// Has the browser keep the page, where it is served, so that it opens without a network too.

const SCRIPT = "offline.js";
const SERVICE = /\/(about\.json|analyse|class)(\/|$)/; // what isn't kept

/** The script's address, as a page that requires trusted types may name it: this one alone. */
function trusted() {
  const address = new URL(SCRIPT, document.baseURI).href;
  const createScriptURL = (text) => {
    if (text !== address) throw new TypeError("a foreign script");
    return text;
  };
  return globalThis.trustedTypes ? globalThis.trustedTypes.createPolicy("offline", { createScriptURL }).createScriptURL(address) : address;
}

/** Keeps the page's files: those that it has asked for already, by asking the browser's own store for them again. */
export async function keepPage() {
  if (!globalThis.isSecureContext || !navigator.serviceWorker || !location.protocol.startsWith("http")) return;
  try {
    await navigator.serviceWorker.register(trusted());
    await navigator.serviceWorker.ready;
    const here = new URL(".", document.baseURI).href, asked = performance.getEntriesByType("resource").map(({ name }) => name);
    const files = asked.filter((name) => name.startsWith(here) && !SERVICE.test(new URL(name).pathname));
    const kept = await caches.open("board");
    await kept.addAll([...new Set([here, ...files])]);
  } catch {
    // the page works all the same
  }
}
