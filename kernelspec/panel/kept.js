// The snapshots of boards that the browser keeps, in a database of its own: 64 KiB of memory are much for localStorage. Only the
// newest few boards stay. A board is named by its kernel and by the session in the kernel's messages, since a kernel that was
// restarted has its old name and a new session.
import {inDatabase} from "./database.js";

// The form of a snapshot; those of another one are passed over.
export const VERSION = 1;

const MOST_BOARDS = 8, STORE = "boards";
const DATABASE = {name: "lab80", makeStores: database => database.createObjectStore(STORE, {keyPath: "name"})};

// This page's last snapshot, for browsers that keep nothing.
let own = null;

/** Does some work with the store, and waits until it is written. The work returns a request, whose result this returns. */
const inStore = (mode, work) => inDatabase(DATABASE, mode, [STORE], transaction => work(transaction.objectStore(STORE)));

/** Keeps a snapshot in place of this board's last one, and drops the oldest boards. If the browser keeps nothing, or its room is
 *  used up, this page alone has it. */
export async function keepBoard(snapshot) {
    own = snapshot;
    const drop = store => ({target}) => {
        const old = target.result.sort((one, other) => other.at - one.at).slice(MOST_BOARDS);
        for (const {name} of old) store.delete(name);
    };
    await inStore("readwrite", store => {
        const put = store.put(snapshot);
        store.getAll().onsuccess = drop(store);
        return put;
    }).catch(() => {});
}

/** The newest snapshot of a kernel's boards; null if there is none. */
export async function newestOf(kernel) {
    const found = await inStore("readonly", store => store.getAll()).catch(() => []);
    const mine = [own, ...found].filter(each => each && each.kernel === kernel && each.version === VERSION);
    return mine.reduce((one, other) => one && one.at >= other.at ? one : other, null);
}
