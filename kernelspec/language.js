// The language of the pages. A text is found by its English form in the table of the language, languages/CODE.json; a text that the
// table lacks stays English. An ES module without dependencies, which the front panel, Notebook, JupyterLab and the site share.

/** The languages by their codes, each by its own name. */
export const LANGUAGES = {en: "English", de: "Deutsch", es: "Espa\u00F1ol", zh: "\u4E2D\u6587"};

// One choice is for all pages of a server.
const SETTING = "lab80 language";

const shown = {code: "en", texts: {}};

/** The code of the language that is shown. */
export const shownCode = () => shown.code;

/** The code that the browser keeps, or an empty text. */
function keptCode() {
    try {
        const code = localStorage.getItem(SETTING);
        return Object.hasOwn(LANGUAGES, code) ? code : "";
    } catch {
        return "";
    }
}

/** The code of the language that the user wants: the one chosen here, else the first of the browser's that is there. */
export function wantedCode() {
    const ofBrowser = (navigator.languages || [navigator.language]).map(each => String(each).toLowerCase().split("-")[0]);
    return keptCode() || ofBrowser.find(each => Object.hasOwn(LANGUAGES, each)) || "en";
}

/** Keeps a choice for the pages that are loaded from now on. Returns whether the browser took it. */
export function chooseCode(code) {
    try {
        localStorage.setItem(SETTING, code);
        return true;
    } catch {
        return false;
    }
}

function checked(texts) {
    const isTable = texts && typeof texts === "object" && !Array.isArray(texts);
    if (!isTable || Object.values(texts).some(each => typeof each !== "string")) throw new Error("it is no table of texts");
    return texts;
}

/** Loads the table of a language, whose address a function gives for the path. Returns an empty text, or a sentence that says why
 *  there is none: then all texts stay English. */
export async function loadTexts(addressOf, how = {}, code = wantedCode()) {
    if (code === "en" || !Object.hasOwn(LANGUAGES, code)) return "";
    try {
        const reply = await fetch(addressOf(`languages/${code}.json`), how);
        if (!reply.ok) throw new Error(String(reply.status));
        Object.assign(shown, {code, texts: checked(await reply.json())});
        return "";
    } catch (fault) {
        return `This page is in English, since its texts in ${LANGUAGES[code]} can't be used (${fault.message})`;
    }
}

/** A text in the shown language, with values in the place of {0}, {1} or {name}. It has to be written in the call, where the tables'
 *  test finds it, or marked by `later`. */
export function t(text, values = []) {
    if (typeof text === "object") return t(text.text, text.values);
    const said = Object.hasOwn(shown.texts, text) ? shown.texts[text] : text;
    return said.replace(/\{(\w+)\}/g, (whole, name) => values[name] ?? whole);
}

/** Marks a text that is translated where it is shown, with its values if it has some. */
export const later = (text, values = null) => values ? {text, values} : text;
