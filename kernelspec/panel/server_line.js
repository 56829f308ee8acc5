// The boards of a Jupyter server: its kernels, over its WebSockets and its REST interface. transport.js says what each export is.
import {t} from "./language.js";
import {SPEC, addressOn, fetchJson, isShut, isStopped, postJson, wayBack, withToken} from "./server.js";

export const startsAtOnce = false, hasJournal = true;

export function open(kernel, session, handlers) {
    const address = addressOn(`api/kernels/${encodeURIComponent(kernel)}/channels`);
    address.protocol = address.protocol.replace("http", "ws");
    address.searchParams.set("session_id", session);
    return Object.assign(new WebSocket(address), handlers);
}

export async function has(kernel) {
    const {status} = await fetchJson("api/kernels/" + encodeURIComponent(kernel));
    const hasEnded = status === 404 && await isMissing(kernel);
    return {hasEnded, isShut: isShut(status), loss: isStopped(status) ? t("this server is stopped") : "", way: wayBack(status)};
}

/** Whether the server itself says that it doesn't have the kernel. A proxy that has just begun answers 404 to everything. */
async function isMissing(kernel) {
    const {content} = await fetchJson("api/kernels");
    return Array.isArray(content) && !content.some(({id}) => id === kernel);
}

/** The running kernels of this kernelspec, each with the path of its notebook. */
export async function boards() {
    const [kernels, sessions] = await Promise.all([fetchJson("api/kernels"), fetchJson("api/sessions")]);
    const names = new Map((sessions.content || []).map(each => [each.kernel && each.kernel.id, each.path || each.name]));
    const mine = (kernels.content || []).filter(each => each.name === SPEC);
    return mine.map(({id}) => ({id, name: names.get(id) || t("board {0}, without a notebook", [id.slice(0, 8)])}));
}

export async function start() {
    const {status, content} = await postJson("api/kernels", {name: SPEC});
    if (content && content.id) return {id: content.id};
    return {refusal: status ? t("the server refused it ({0})", [status]) : t("the server refused it, or isn't there")};
}

/** The cells of the board's notebook, as it was saved last. */
export async function cells(kernel) {
    const {content: sessions} = await fetchJson("api/sessions");
    const isMine = each => each.type === "notebook" && each.kernel && each.kernel.id === kernel;
    const {path} = Array.isArray(sessions) && sessions.find(isMine) || {};
    if (!path) return [];
    const {content: file} = await fetchJson(`api/contents/${path.split("/").map(encodeURIComponent).join("/")}?type=notebook`);
    const {cells: found} = file && file.content || {};
    return Array.isArray(found) ? found : [];
}

// ---- lessons

// The first lesson, and the folders that may have it: the server's own, and the copy that the documents tell of.
const FIRST = "01-registers.ipynb", FOLDERS = ["", "lessons"];

const NONE = t("they are notebooks, and this server's folder has none. Copy the folder lessons there");

const hasLessons = ({content}) => content && Array.isArray(content.content) && content.content.some(({name}) => name === FIRST);

export async function lessons() {
    const found = await Promise.all(FOLDERS.map(folder => fetchJson(`api/contents/${folder}?type=directory`)));
    const folder = FOLDERS.find((_, at) => hasLessons(found[at]));
    return folder === undefined ? {refusal: NONE} : {address: await pageOf(folder)};
}

/** The address of a folder in what this server has: the classic Notebook, which doesn't answer HEAD, or JupyterLab. */
async function pageOf(folder) {
    const [tree, lab] = ["tree/", "lab/tree/"].map(page => addressOn(page + folder));
    const reply = await fetch(tree, {headers: withToken()}).catch(() => ({ok: false}));
    return reply.ok ? tree : lab;
}

// ---- addresses with a program

// The most letters of an address, and of one that a login keeps.
const MOST_KEPT = 2000;
export const MOST_SHARED = 32000;

const LOST_AT_LOGIN = t("the cell is too long to be kept through a login. Who opens the address must be logged in already");

// Below a hub each user's server is at a path with the user's name. The path of another word leads all who open it to servers of
// their own, but a login there drops what stands behind the number sign.
const [, HUB] = /^(.*?\/)user\/[^/]+\/(?:[^/]+\/)?$/.exec(addressOn("").pathname) || [];

/** By the hub if there is one, and there in a form that a login keeps unless it is too long. */
export function addressWith(letters) {
    const place = `kernelspecs/${encodeURIComponent(SPEC)}/panel.html`;
    const address = HUB ? new URL(`${HUB}hub/user-redirect/${place}`, location.href) : addressOn(place);
    if (HUB && letters.length <= MOST_KEPT) address.searchParams.set("cell", letters);
    else address.hash = `cell=${letters}`;
    return {address, isOwn: !HUB, warning: HUB && address.hash ? LOST_AT_LOGIN : ""};
}
