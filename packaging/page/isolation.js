// Sees to it that the program can wait for commands: by promises in WebAssembly, or in memory that threads share. That a browser gives to
// pages with two headers alone. Where the page's host does not send them, a service worker adds them.

const TRIED = "ljserve-headers"; // noted for as long as this page is open, so that it is loaded anew once
const NOWHERE =
  "this browser has no promises in WebAssembly (Chrome and Edge have them from version 137 on), and gives this page no shared memory: " +
  "open it in another browser, or over https:// from a host that sends the headers COOP same-origin and COEP require-corp";

const canWait = () => "Suspending" in WebAssembly || typeof SharedArrayBuffer !== "undefined";

/** Returns when the program can wait. An error that says what helps if it never can. */
export async function prepare() {
  if (canWait()) return;
  const workers = navigator.serviceWorker; // of a page that is safe alone: over HTTPS, or from this machine
  if (!workers || sessionStorage.getItem(TRIED)) throw new Error(NOWHERE);
  sessionStorage.setItem(TRIED, "yes");
  await workers.register("headers.js");
  await workers.ready;
  location.reload();
  await new Promise(() => {});
}
