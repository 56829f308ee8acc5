// Databases that the browser keeps. Each is opened for one piece of work, so that no page keeps another one waiting; one that
// `staysOpen` is closed when another page wants to change or delete it.

const held = new Map();

function opened(name, makeStores) {
    return new Promise((done, fail) => {
        const request = indexedDB.open(name, 1);
        request.onupgradeneeded = () => makeStores(request.result);
        request.onsuccess = () => done(request.result);
        request.onerror = request.onblocked = () => fail(request.error);
    });
}

/** A database that stays open for the next piece of work. */
async function heldOpen(name, makeStores) {
    if (!held.has(name)) held.set(name, opened(name, makeStores));
    try {
        const database = await held.get(name), forget = () => held.delete(name);
        database.onversionchange = () => { database.close(); forget(); };
        database.onclose = forget;
        return database;
    } catch (fault) {
        held.delete(name);
        throw fault;
    }
}

/** Does some work with the stores of a database, and waits until it is written. The work gets a transaction and returns a
 *  request, whose result this returns. */
export async function inDatabase({name, makeStores, staysOpen = false}, mode, stores, work) {
    const database = await (staysOpen ? heldOpen : opened)(name, makeStores);
    try {
        return await new Promise((done, fail) => {
            const transaction = database.transaction(stores, mode), request = work(transaction);
            transaction.oncomplete = () => done(request.result);
            transaction.onabort = transaction.onerror = () => fail(transaction.error);
        });
    } finally {
        if (!staysOpen) database.close();
    }
}
