// Sections that are folded up to their headings, as the browser keeps them.
import {byId, readSetting, saveSetting} from "./dom.js";
import {showCurrent, showSource} from "./texts.js";

const SETTING = "folded";

const titles = () => [...byId("board").querySelectorAll(".fold")];
const isOpen = title => title.getAttribute("aria-expanded") === "true";

function show(title, isShown) {
    title.closest("section").classList.toggle("folded", !isShown);
    title.setAttribute("aria-expanded", isShown);
}

function toggle(title) {
    show(title, !isOpen(title));
    saveSetting(SETTING, titles().filter(each => !isOpen(each)).map(each => each.id));
    showSource();
    showCurrent();
}

export function listenToFolds() {
    const kept = readSetting(SETTING), folded = Array.isArray(kept) ? kept : [];
    for (const title of titles()) {
        show(title, !folded.includes(title.id));
        title.onclick = () => toggle(title);
    }
}
