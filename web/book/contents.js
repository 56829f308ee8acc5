// The table of contents: what is done of each lesson.
import {ask, byId} from "../panel/dom.js";
import {forgetLesson, keptOf} from "./kept.js";
import {tell} from "./message.js";
import {keepSite} from "./site.js";

const marks = [...document.querySelectorAll("[data-exercises]")];

function show() {
    let sum = 0, most = 0, isAny = false;
    for (const mark of marks) {
        const {right, texts} = keptOf(mark.dataset.lesson), count = Number(mark.dataset.exercises);
        sum += right.length;
        most += count;
        isAny ||= right.length > 0 || Object.keys(texts).length > 0;
        mark.textContent = right.length > 0 ? `${right.length} of ${count}` : Object.keys(texts).length > 0 ? "begun" : "";
        mark.classList.toggle("whole", right.length === count);
    }
    byId("done").textContent = sum > 0 ? `${sum} of ${most} exercises are right.` : "";
    byId("forget").hidden = !isAny;
}

async function forget() {
    if (!await ask("This drops your texts of all lessons, and which exercises are right.", "Forget all")) return;
    const isDone = marks.map(mark => forgetLesson(mark.dataset.lesson)).every(each => each);
    if (!isDone) tell("The browser refused to forget the lessons");
    show();
}

byId("forget").onclick = forget;
// a page that comes back from the browser's memory, or beside another one
addEventListener("pageshow", show);
addEventListener("storage", show);
show();
keepSite();
