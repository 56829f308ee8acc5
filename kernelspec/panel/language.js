// The page's language: its table is loaded before any other part of the page begins, since they all import this one; then the
// texts that stand in the page are replaced.
import * as cards from "../cards.js";
import * as errors from "../errors.js";
import {LANGUAGES, chooseCode, loadTexts, shownCode, t, wantedCode} from "../language.js";
import * as notes from "./notes.js";
import {addressBeside, withToken} from "./server.js";
import * as warnings from "./warnings.js";
import * as why from "./why.js";

export {later, shownCode, t} from "../language.js";

if (document.readyState === "loading") await new Promise(done => document.addEventListener("DOMContentLoaded", done));

// A lesson's page offers no choice: it has the language of its text.
const chooser = document.getElementById("language"), code = chooser ? wantedCode() : document.documentElement.lang;
const fault = await loadTexts(addressBeside, {headers: withToken()}, code);
for (const {speakBy} of [cards, errors, notes, warnings, why]) speakBy(t);

// ---- the texts that stand in the page

const ATTRIBUTES = ["title", "aria-label", "placeholder"], CODE = "code, kbd, script, style, pre";

/** A text of the page's source, whose lines are broken anywhere. */
const joined = text => text.trim().replace(/\s+/g, " ");

/** A text with its blanks at both ends. */
const replaced = text => /^\s*/.exec(text)[0] + t(joined(text)) + /\s*$/.exec(text)[0];

/** Whether an element is a sentence with elements in it, which stand elsewhere in another language. */
const isSentence = ({localName, children, childNodes}) => localName === "p" && children.length > 0
    && [...childNodes].some(each => each.nodeType === Node.TEXT_NODE && each.data.trim() !== "");

/** Replaces a sentence, in whose text its elements are {0}, {1} and so on. */
function replaceSentence(element) {
    const children = [...element.children];
    const text = joined([...element.childNodes].map(each => children.includes(each) ? `{${children.indexOf(each)}}` : each.data).join(""));
    const parts = t(text).split(/\{(\d+)\}/);
    element.replaceChildren(...parts.map((part, at) => at % 2 === 1 ? children[part] : part));
}

function replaceTexts(element) {
    for (const name of ATTRIBUTES) if (element.hasAttribute(name)) element.setAttribute(name, t(element.getAttribute(name)));
    if (element.matches(CODE)) return;
    if (isSentence(element)) replaceSentence(element);
    else for (const each of element.childNodes) if (each.nodeType === Node.TEXT_NODE && each.data.trim()) each.data = replaced(each.data);
    for (const each of element.children) replaceTexts(each);
}

if (chooser) document.documentElement.lang = shownCode();
if (chooser && shownCode() !== "en") replaceTexts(document.body);
document.documentElement.hidden = false;

// ---- the choice

/** Offers the languages. A page that is to have another one is loaded anew. `tell` says what can't be done. */
export function listenToLanguage(tell) {
    chooser.append(...Object.entries(LANGUAGES).map(([code, name]) => new Option(name, code, false, code === shownCode())));
    for (const option of chooser.options) option.lang = option.value;
    chooser.onchange = () => {
        if (chooseCode(chooser.value)) return location.reload();
        tell(t("Language: the browser keeps nothing here"));
        chooser.value = shownCode();
    };
    if (fault) tell(fault);
}
