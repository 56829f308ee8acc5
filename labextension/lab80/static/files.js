// The files that this extension shares with the front panel and the classic Notebook. They are the kernelspec's, so that all say
// the same of a text.

/** Whether a kernel is one of this laboratory's, by its name. */
export const isOurs = name => /^lab80/.test(name || "");

const specsOf = app => (app.serviceManager.kernelspecs.specs || {}).kernelspecs || {};

const versionOf = (app, kernel) => ((specsOf(app)[kernel] || {}).metadata || {}).version || "";

/** The address of a file in a kernelspec's folder. Its version lets browsers cache the file until there is a new one. */
export function addressOf({modules, app}, kernel, file, query = {}) {
    const {PageConfig, URLExt} = modules.coreutils, version = versionOf(app, kernel);
    const address = URLExt.join(PageConfig.getBaseUrl(), "kernelspecs", encodeURIComponent(kernel), file);
    const asked = new URLSearchParams(version ? {v: version, ...query} : query).toString();
    return address + (asked && "?" + asked);
}

/** Says something, where the page shows its notifications and in the console. */
export function tell({modules}, text, milliseconds) {
    console.error(`lab80: ${text}`);
    modules.apputils.Notification.error(`8080: ${text}`, {autoClose: milliseconds});
}

// The exports that are used here. Those of another version may lack some.
const USED = {
    shared: "COLUMN KIND_OF WORDS columnAfter completionsAt instructionAt isPartOfWord namesIn tokenAt".split(" "),
    errors: "ONLY_LOADED explainError isOnlyLoaded speakBy".split(" "),
    cards: "card inWords textOf".split(" "), language: "loadTexts t".split(" "),
};

let loaded = null;

/** Loads the texts in the page's language, if a kernel of this laboratory is there; else all stays English. */
export async function loadLanguage(lab) {
    try {
        const {address, query} = await place(lab), language = await import(address("language.js", query));
        const fault = await language.loadTexts(path => address(path, query));
        if (fault) tell(lab, fault, false);
        lab.t = language.t;
    } catch {
        // what needs the files says that they can't be had
    }
}

/** Where the kernel's files are: the name of the kernel, the function that gives a file's address, and what the server wants in it. */
async function place(lab) {
    await lab.app.serviceManager.kernelspecs.ready;
    const [name] = Object.keys(specsOf(lab.app)).filter(isOurs).sort();
    if (!name) throw new Error(lab.t("this server has no kernel of this name any more"));
    const address = (file, query) => addressOf(lab, name, file, query);
    return {name, address, query: await lab.wanted(address("shared.js"))};
}

/** The modules {shared, errors, cards, language}, which are loaded once. If they can't be had the page says so, until that is closed, and
 *  cells stay plain. */
export function load(lab) {
    loaded = loaded || loadFiles(lab).catch(fault => {
        const why = fault.message.replace(/\?\S*/, "");
        tell(lab, lab.t("no colours, words for errors or cards: {0}. Cells run. Load this page anew to try again", [why]), false);
        throw fault;
    });
    return loaded;
}

async function loadFiles(lab) {
    const {name, address, query} = await place(lab), names = Object.keys(USED);
    const found = await Promise.all(names.map(file => import(address(`${file}.js`, query))));
    const files = Object.fromEntries(names.map((file, at) => [file, found[at]]));
    compare(files, lab.version, versionOf(lab.app, name));
    for (const {speakBy} of [files.errors, files.cards]) speakBy(lab.t);
    return files;
}

/** Notes in the console that the kernelspec's files are of another version than this extension. Fails if they lack something. */
function compare(found, own, theirs) {
    const lacking = Object.entries(USED).flatMap(([file, names]) => names.filter(name => !(name in found[file])));
    const told = `this extension is of version ${own || "0"} and the kernel's files of ${theirs || "0"}`;
    if (lacking.length > 0) throw new Error(`${told}, which lack ${lacking[0]}: install both from one source`);
    if (own && theirs && own !== theirs) console.warn(`lab80: ${told}: install both from one source`);
}
