// The card of all instructions, beside the notebook.

const titles = t => ({
    transfer: t("Loads and copies"), arithmetic: t("Arithmetic"), logical: t("Logic"), branch: t("Jumps, calls, returns"),
    stack: t("Stack, input, output, control"),
});

let card = null;

/** Shows the card in the page's sidebar, or hides it if it is shown. */
export async function toggle(lab) {
    const {app} = lab;
    if (card && card.isVisible) return app.shell.collapseRight();
    const files = await lab.parts.files.load(lab);
    if (!card) {
        card = make(lab, files);
        app.shell.add(card, "right", {rank: 900});
    }
    app.shell.activateById(card.id);
}

function make(lab, {shared, cards}) {
    const made = new lab.modules.widgets.Widget();
    made.id = "lab80-instructions";
    made.title.label = "8080";
    made.title.caption = lab.t("The instructions of the 8080");
    made.addClass("lab80-instructions");
    for (const [kind, title] of Object.entries(titles(lab.t))) {
        const head = document.createElement("h2");
        head.textContent = title;
        made.node.append(head, ...shared.WORDS[kind].split(" ").map(word => lab.parts.help.cardElement(lab, cards.inWords(cards.card(word)))));
    }
    return made;
}
