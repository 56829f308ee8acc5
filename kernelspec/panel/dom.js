// Small helpers: elements, numbers as texts, work in sequence, and what the browser keeps.
import {addressOn} from "./server.js";

export const byId = id => document.getElementById(id);

export const hexadecimal = (number, digits) => number.toString(16).toUpperCase().padStart(digits, "0");

/** The value of a number in the kernel's and the assembler's notation: 05AH, 0FFFEH. */
export const numberOf = text => parseInt(text, 16);

export const addressText = number => hexadecimal(number, 4) + "H";

export const character = byte => byte > 31 && byte < 127 ? String.fromCharCode(byte) : "\u00B7";

/** An element with members and attributes. Its content is inserted as text or as elements, never as HTML. */
export function make(tag, members = {}, ...children) {
    const made = document.createElement(tag);
    for (const [name, value] of Object.entries(members)) {
        if (name in made) made[name] = value;
        else made.setAttribute(name, value);
    }
    made.append(...children);
    return made;
}

export const passed = milliseconds => new Promise(done => setTimeout(done, milliseconds));

/** Returns a function that runs tasks one after the other, so that no two of them read and write at once. */
export function turns() {
    let last = Promise.resolve();
    return work => (last = last.then(work, work));
}

/** Returns a function that does some work once, however often it is called by what goes on now, and after that. */
export function afterwards(work) {
    let isDue = false;
    return () => {
        if (isDue) return;
        isDue = true;
        queueMicrotask(() => { isDue = false; work(); });
    };
}

/** Asks a question with two answers. Returns whether the answer was yes. */
export function ask(text, yes) {
    const question = byId("question");
    byId("question-text").textContent = text;
    byId("question-yes").textContent = yes;
    question.showModal();
    return new Promise(done => {
        question.querySelector("form").onsubmit = event => done(event.submitter.value === "yes");
        question.oncancel = () => done(false);
    });
}

// Below a hub all users' servers are one place to the browser, which keeps values by place. So their names begin with the path of
// the user's server, unless the server is all that is there.
const {pathname: BASE} = addressOn(""), OWNER = BASE === "/" ? "lab80 " : `lab80 ${BASE} `;

/** A value that the browser keeps for this page, as JSON; nothing if it keeps none. */
export function readSetting(name, storage = () => localStorage) {
    try {
        return JSON.parse(storage().getItem(OWNER + name));
    } catch {
        return null;
    }
}

/** Keeps a value, or drops it if it is null. Returns whether the browser took it. */
export function saveSetting(name, value, storage = () => localStorage) {
    try {
        if (value === null) storage().removeItem(OWNER + name);
        else storage().setItem(OWNER + name, JSON.stringify(value));
        return true;
    } catch {
        return false;
    }
}
