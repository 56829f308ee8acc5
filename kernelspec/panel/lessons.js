// The ways from the page to what there is to read: the card of all instructions, the lessons, and the glossary.
import {tell} from "./commands.js";
import {byId} from "./dom.js";
import {t} from "./language.js";
import {addressBeside, addressOn, isSite} from "./server.js";
import {transport} from "./transport.js";

/** Opens the lessons. Nothing is asked until somebody wants to go there. */
async function openLessons() {
    const {address, refusal} = await transport.lessons();
    tell(address ? "" : `${t("Lessons")}: ${refusal}`);
    if (address) window.open(address, "lab80-lessons");
}

/** The glossary: with its lessons where the site has them, or else a page beside this one. */
function glossary() {
    const {lessons} = document.documentElement.dataset;
    return isSite && lessons ? addressOn(`${lessons}glossary.html`) : addressBeside("glossary.html");
}

export function listenToReading() {
    byId("to-card").href = addressBeside("card.html");
    byId("to-glossary").href = glossary();
    byId("to-lessons").onclick = () => (openLessons(), false);
}
