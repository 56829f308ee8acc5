// The service worker of the site's pages: all files are kept for use without a network.
import {canSuspend} from "./abilities.js";
import {addressOf} from "./place.js";

const RELOADED = "lab80 isolated";

async function register() {
    return navigator.serviceWorker.register(addressOf("sw.js"), {updateViaCache: "none"});
}

/** Loads the page anew, once, if only the service worker's headers let it run a board. */
async function isolate() {
    if (canSuspend || globalThis.crossOriginIsolated || sessionStorage.getItem(RELOADED)) return;
    sessionStorage.setItem(RELOADED, "1");
    await navigator.serviceWorker.ready;
    location.reload();
    await new Promise(() => {});
}

/** Registers the service worker, and returns its registration; null if the browser has none for this page. */
export async function keepOffline() {
    const registration = await register().catch(() => null);
    if (registration) await isolate().catch(() => {});
    return registration;
}
