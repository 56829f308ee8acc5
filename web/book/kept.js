// What the browser keeps of a lesson: the texts that the student has changed, by their cells, and the exercises that are right.
import {readSetting, saveSetting} from "../panel/dom.js";

// The most characters that are kept of a lesson, as JSON: some forty times what a diligent student writes.
const MOST_CHARACTERS = 100000;

const nameOf = lesson => `lesson ${lesson}`;

const isObject = value => typeof value === "object" && value !== null && !Array.isArray(value);

// What the browser didn't take, by lessons: this page alone has it.
const own = new Map();

/** What is kept of a lesson: {texts, right}. Other content, as of an earlier form, is passed over. */
export function keptOf(lesson) {
    const {texts, right} = own.get(lesson) || readSetting(nameOf(lesson)) || {};
    const whole = Object.entries(isObject(texts) ? texts : {}).filter(([, text]) => typeof text === "string");
    return {texts: Object.fromEntries(whole), right: Array.isArray(right) ? right.filter(Number.isInteger) : []};
}

/** Keeps what a function changes in it. Returns why the browser doesn't keep it, or an empty text. */
function change(lesson, work) {
    const kept = keptOf(lesson);
    work(kept);
    if (JSON.stringify(kept).length > MOST_CHARACTERS) return "The texts of this lesson are too long to be kept";
    const isEmpty = kept.right.length === 0 && Object.keys(kept.texts).length === 0;
    own.delete(lesson);
    if (saveSetting(nameOf(lesson), isEmpty ? null : kept)) return "";
    own.set(lesson, kept);
    return "The browser doesn't keep what is written here";
}

/** Keeps a cell's text, or drops it if it is null. */
export const keepText = (lesson, cell, text) => change(lesson, kept => {
    delete kept.texts[cell];
    if (text !== null) kept.texts[cell] = text;
});

/** Keeps whether an exercise is right. */
export const keepRight = (lesson, exercise, isRight) => change(lesson, kept => {
    kept.right = kept.right.filter(each => each !== exercise).concat(isRight ? [exercise] : []).sort((one, other) => one - other);
});

/** Drops all that is kept of a lesson. Returns whether the browser did. */
export function forgetLesson(lesson) {
    own.delete(lesson);
    return saveSetting(nameOf(lesson), null);
}
