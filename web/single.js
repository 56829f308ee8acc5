// Begins a page that is one file, which has all others in it: gives each module an address that begins with blob:, and puts into
// it the addresses of those that it imports. web/single.py writes what it reads, with imports as "lab80:PATH".

/** Gives modules addresses, each after those that it imports. Their web/place.js has the addresses that there are before. */
function link(modules, paths, addresses) {
    const add = (path, text) => { addresses[path] = URL.createObjectURL(new Blob([text], {type: "text/javascript"})); };
    add("web/place.js", `export const isOneFile = true, addressOf = path => new URL(${JSON.stringify(addresses)}[path]);`);
    for (const path of paths) add(path, modules[path].replace(/"lab80:([^"]+)"/g, (_, each) => JSON.stringify(addresses[each])));
}

/** The address of a file that is packed: by gzip, and as letters. */
async function unpacked(letters) {
    const bytes = Uint8Array.from(atob(letters), each => each.charCodeAt(0));
    const stream = new Blob([bytes]).stream().pipeThrough(new DecompressionStream("gzip"));
    return URL.createObjectURL(await new Response(stream).blob());
}

/** Begins the worker. What comes meanwhile is kept. */
async function beginWorker({page, program, modules, paths}) {
    const early = [], addresses = {"": page};
    self.onmessage = event => early.push(event);
    addresses[program.path] = await unpacked(program.letters);
    link(modules, paths, addresses);
    await import(addresses["web/worker.js"]);
    for (const each of early) self.onmessage(each);
}

/** The worker's script. It makes addresses of its own, since browsers don't let it load those of a page that is a file. */
const workerText = given => `${link}\n${unpacked}\n${beginWorker}
    beginWorker(${JSON.stringify(given)}).catch(fault => setTimeout(() => { throw fault; }));`;

/** What the page has in it. */
function contents() {
    try {
        return JSON.parse(document.getElementById("files").textContent);
    } catch {
        throw new Error("its file is damaged, or cut off");
    }
}

async function beginPage() {
    const {files, packed, program, modules, paths} = contents(), page = location.href.replace(/[?#][^]*$/, ""), addresses = {"": page};
    files["web/worker.js"] = {type: "text/javascript", text: workerText({page, program, modules, paths: paths.worker})};
    for (const [path, {type, text}] of Object.entries(files)) addresses[path] = URL.createObjectURL(new Blob([text], {type}));
    for (const [path, letters] of Object.entries(packed)) addresses[path] = await unpacked(letters);
    link(modules, paths.page, addresses);
    await import(addresses["panel/main.js"]);
    (await import(addresses["web/extras.js"])).begin(null);
}

beginPage().catch(fault => {
    const message = document.getElementById("message");
    message.firstElementChild.textContent = `The page can't begin: ${fault.message}`;
    message.hidden = false;
});
