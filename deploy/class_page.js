// Keeps the rows of the class page as the boards are, while somebody sees it.
const PAUSE = 5000;
const byId = id => document.getElementById(id), body = document.querySelector("tbody");

/** Puts rows in place of those that are others now. A link that has the focus keeps it. */
function show({sum, rows}) {
    const made = document.createElement("template");
    made.innerHTML = rows;
    const before = [...body.rows], after = [...made.content.querySelectorAll("tr")];
    const {activeElement: link} = document, address = body.contains(link) ? link.getAttribute("href") : "";
    after.forEach((row, at) => {
        if (!before[at]) body.append(row);
        else if (before[at].outerHTML !== row.outerHTML) before[at].replaceWith(row);
    });
    before.slice(after.length).forEach(row => row.remove());
    if (address && !body.contains(document.activeElement)) body.querySelector(`a[href="${CSS.escape(address)}"]`)?.focus();
    byId("sum").textContent = sum;
}

/** Says why the rows are old, with a link that helps. */
function tell(said, way = "") {
    if (byId("told").textContent === said + way) return;
    byId("told").textContent = said;
    if (!way) return;
    const link = document.createElement("a");
    Object.assign(link, {href: location.href, textContent: way, onclick: () => (location.reload(), false)});
    byId("told").append(link);
}

async function look() {
    try {
        const reply = await fetch("rows", {headers: {"X-XSRFToken": document.body.dataset.word}, redirect: "manual"});
        if (reply.ok) {
            show(await reply.json());
            tell("");
        } else if (reply.status === 403 || reply.type === "opaqueredirect") tell("Your login has ended. ", "Log in again");
        else tell("The hub doesn't answer; what is shown is old. ");
    } catch {
        tell("The hub doesn't answer; what is shown is old. ");
    }
}

/** Looks now, and again after each pause, while the page is seen. */
async function follow() {
    for (;;) {
        if (!document.hidden) await look();
        await new Promise(done => setTimeout(done, PAUSE));
    }
}

document.addEventListener("visibilitychange", () => document.hidden || look());
follow();
