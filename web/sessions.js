// The sessions that the browser keeps, in a database of its own: those of the boards that were used last.
import {inDatabase} from "../panel/database.js";

// The most boards, and the form of a session; those of another one are passed over.
const MOST_BOARDS = 8, VERSION = 1;

// A session's chunks are apart from what is known of it, so that a long one is written piece by piece.
const SESSIONS = "sessions", CHUNKS = "chunks", STORES = [SESSIONS, CHUNKS];
const DATABASE = {
    name: "lab80 sessions",
    staysOpen: true,
    makeStores(database) {
        database.createObjectStore(SESSIONS, {keyPath: "board"});
        database.createObjectStore(CHUNKS);
    },
};

// A browser may keep a page that was left, with its worker, as they are, and so with whatever their database was about to do, for
// which all others wait. A message ends such pages. A browser that keeps nothing may refuse the channel.
const pages = openChannel();

function openChannel() {
    try {
        return Object.assign(new BroadcastChannel(DATABASE.name), {onmessage() {}});
    } catch {
        return null;
    }
}

const chunksOf = board => IDBKeyRange.bound([board, 0], [board, Infinity]);

/** The session of a board, {name, chunks}; null if none is kept. */
export async function loadSession(board) {
    let found = null;
    if (pages) pages.postMessage("");
    const chunks = await inDatabase(DATABASE, "readonly", STORES, transaction => {
        transaction.objectStore(SESSIONS).get(board).onsuccess = ({target}) => { found = target.result; };
        return transaction.objectStore(CHUNKS).getAll(chunksOf(board));
    });
    return found && found.version === VERSION && chunks.length === found.count ? {name: found.name, chunks} : null;
}

/** Keeps chunks of a board's session, each [number, bytes], of which there are `count` in all. Fails if the browser keeps nothing,
 *  or its room is used up. */
export const saveSession = (board, {name, count, changed}) => inDatabase(DATABASE, "readwrite", STORES, transaction => {
    const chunks = transaction.objectStore(CHUNKS);
    for (const [number, bytes] of changed) chunks.put(bytes, [board, number]);
    const request = transaction.objectStore(SESSIONS).put({board, name, count, at: Date.now(), version: VERSION});
    // a page that is loaded anew ends its worker, which waits for nothing
    transaction.commit();
    return request;
});

/** Drops the sessions of the boards that were used longest ago. */
export const dropOld = () => inDatabase(DATABASE, "readwrite", STORES, transaction => {
    const request = transaction.objectStore(SESSIONS).getAll();
    request.onsuccess = () => {
        const old = request.result.sort((one, other) => other.at - one.at).slice(MOST_BOARDS);
        for (const {board} of old) forget(transaction, board);
    };
    return request;
});

function forget(transaction, board) {
    transaction.objectStore(CHUNKS).delete(chunksOf(board));
    return transaction.objectStore(SESSIONS).delete(board);
}

export const dropSession = board => inDatabase(DATABASE, "readwrite", STORES, transaction => forget(transaction, board));

/** The boards whose sessions are kept, each {board, at}, those first that were used last. */
export async function keptSessions() {
    const found = await inDatabase(DATABASE, "readonly", [SESSIONS], transaction => transaction.objectStore(SESSIONS).getAll());
    return found.filter(each => each.version === VERSION).sort((one, other) => other.at - one.at);
}
