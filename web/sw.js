// The service worker: it keeps all files of one version, and hands out no others, so that no page has files of two versions. A
// new version is used once no page has the old one, or all pages agree. web/make writes VERSION and FILES, with each file's
// SHA-256.
const SCOPE = new URL(self.registration.scope), KEPT = `lab80 ${SCOPE.pathname} ${VERSION}`;

// Where programs in WebAssembly can't be suspended, workers need shared memory, which only isolated pages have.
const ISOLATES = !("Suspending" in WebAssembly);
const ISOLATION = {
    "Cross-Origin-Opener-Policy": "same-origin", "Cross-Origin-Embedder-Policy": "require-corp",
    "Cross-Origin-Resource-Policy": "same-origin",
};

const addressOf = path => new URL(path, SCOPE).href;

/** A file of this version from the network. Fails if the host has another one. */
async function load(path) {
    const reply = await fetch(addressOf(path), {cache: "no-store"});
    if (!reply.ok) throw new Error(`${path}: ${reply.status}`);
    const bytes = await reply.clone().arrayBuffer();
    const sum = [...new Uint8Array(await crypto.subtle.digest("SHA-256", bytes))].map(each => each.toString(16).padStart(2, "0"));
    if (sum.join("") !== FILES[path]) throw new Error(`${path} is of another version`);
    return reply;
}

async function install() {
    const kept = await caches.open(KEPT);
    await Promise.all(Object.keys(FILES).map(async path => kept.put(addressOf(path), await load(path))));
}

/** Drops the files of other versions of this site; other sites of this host have theirs. */
async function dropOthers() {
    const names = await caches.keys(), isOther = each => each.startsWith(`lab80 ${SCOPE.pathname} `) && each !== KEPT;
    await Promise.all(names.filter(isOther).map(each => caches.delete(each)));
}

function isolated(reply) {
    if (!ISOLATES || reply.status === 0) return reply;
    const headers = new Headers(reply.headers), {status, statusText} = reply;
    for (const [name, value] of Object.entries(ISOLATION)) headers.set(name, value);
    return new Response(reply.body, {status, statusText, headers});
}

/** The path of one of the site's files, or undefined. A folder's is its index. */
function pathOf(address) {
    const {origin, pathname} = new URL(address);
    if (origin !== SCOPE.origin || !pathname.startsWith(SCOPE.pathname)) return undefined;
    const path = pathname.slice(SCOPE.pathname.length).replace(/(^|\/)$/, "$1index.html");
    return path in FILES ? path : undefined;
}

async function answer(path) {
    const kept = await caches.open(KEPT), found = await kept.match(addressOf(path));
    // a browser that needs room may drop files
    return isolated(found || await load(path).catch(() => Response.error()));
}

self.oninstall = event => event.waitUntil(install());
self.onactivate = event => event.waitUntil(dropOthers());
self.onmessage = ({data}) => { if (data === "use") self.skipWaiting(); };
self.onfetch = event => {
    const path = event.request.method === "GET" ? pathOf(event.request.url) : undefined;
    if (path !== undefined) event.respondWith(answer(path));
};
