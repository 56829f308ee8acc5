// The site to which the course's pages belong.
import {keepOffline} from "../web/offline.js";

/** Keeps the site's files for use without a network. When a new version is used, which is by all windows at once, the page is
 *  loaded anew. */
export async function keepSite() {
    const {serviceWorker} = navigator, hadOne = Boolean(serviceWorker && serviceWorker.controller);
    if (serviceWorker) serviceWorker.oncontrollerchange = () => hadOne && location.reload();
    await keepOffline();
}
