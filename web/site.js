// The static site's page: it is kept for use without a network, opens the panel, and adds what a board in the browser has
// besides. It comes first, since some browsers need a service worker before they can run a board.
import {keepOffline} from "./offline.js";

const registration = await keepOffline();
await import("../panel/main.js");
(await import("./extras.js")).begin(registration);
