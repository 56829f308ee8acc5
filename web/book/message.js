// The page's messages.
import {byId} from "../panel/dom.js";

/** Shows a sentence at the foot of the window until it is closed, or takes the last one away. */
export function tell(text) {
    byId("message").hidden = text === "";
    byId("message").firstElementChild.textContent = text;
}

byId("message").querySelector("button").onclick = () => tell("");
