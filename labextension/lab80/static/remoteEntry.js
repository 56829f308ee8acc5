// The extension of JupyterLab 4 and Notebook 7 for this kernel, made by hand instead of by a build step. The page loads this file
// as a script, gives `init` the modules that it shares, and asks `get` for the plugins.
(() => {
    "use strict";

    // This extension's own files. None imports another one: below a JupyterHub addresses need a word that an import can't have.
    const PARTS = ["card", "cells", "completion", "faults", "files", "help", "keys", "looks", "notebooks", "panel", "plugins"];

    // The page's modules that are used, by their names here.
    const MODULES = {
        apputils: "@jupyterlab/apputils", completer: "@jupyterlab/completer", coreutils: "@jupyterlab/coreutils",
        codemirror: "@jupyterlab/codemirror", mainmenu: "@jupyterlab/mainmenu", notebook: "@jupyterlab/notebook",
        highlight: "@lezer/highlight", language: "@codemirror/language", state: "@codemirror/state", view: "@codemirror/view",
        widgets: "@lumino/widgets",
    };

    const here = new URL(document.currentScript.src), version = here.searchParams.get("v") || "";
    let scope = {};

    /** A module that the page shares. Of several versions it is the one that the page takes: one that is loaded already, or else
     *  the newest. With two copies of a module its objects would be strangers to each other. */
    async function sharedModule(name) {
        const found = Object.entries(scope[name] || {});
        if (found.length === 0) throw new Error(`this page shares no module ${name}`);
        found.sort(([one], [other]) => other.localeCompare(one, "en", {numeric: true}));
        const [, chosen] = found.find(([, {loaded}]) => loaded) || found[0];
        return (await chosen.get())();
    }

    /** An object of promised values, from pairs of a name and a promise. */
    const all = async pairs => Object.fromEntries(await Promise.all(pairs.map(async ([name, value]) => [name, await value])));

    const cookie = name => (document.cookie.split("; ").find(each => each.startsWith(`${name}=`)) || "").slice(name.length + 1);

    /** What a server wants in the addresses of modules, found out by one of them. JupyterHub (from 4.1) lets no module pass
     *  without the value of its cookie. Other servers' addresses stay without it, so that browsers find the files that they
     *  keep. */
    async function wanted(address) {
        const {ok} = await fetch(address, {redirect: "manual"}), value = cookie("_xsrf");
        return !ok && value ? {_xsrf: value} : {};
    }

    /** The address of a part. It has the version of this file, if that has one. */
    function addressOf(part, query = {}) {
        const address = new URL(`${part}.js`, here);
        address.search = new URLSearchParams(version ? {v: version, ...query} : query);
        return address.href;
    }

    async function plugins() {
        const query = await wanted(addressOf(PARTS[0]));
        const parts = await all(PARTS.map(part => [part, import(addressOf(part, query))]));
        const modules = await all(Object.entries(MODULES).map(([name, path]) => [name, sharedModule(path)]));
        return parts.plugins.make({parts, modules, wanted, version});
    }

    /** The plugins, or none if a file or a module can't be had: the page goes on without this extension. */
    async function pluginsOrNone() {
        try {
            return await plugins();
        } catch (fault) {
            console.error(`lab80: JupyterLab's extension isn't there. Load this page anew. (${fault.message})`);
            return [];
        }
    }

    window._JUPYTERLAB = window._JUPYTERLAB || {};
    window._JUPYTERLAB.lab80 = {
        init(given) { scope = given; },
        async get() {
            const made = await pluginsOrNone();
            return () => ({__esModule: true, default: made});
        },
    };
})();
