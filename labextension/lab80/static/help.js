// Cards of the instructions: beside the mouse, and for the page's own help at the cursor.

/** A card beside the word that the mouse is on. */
export function hover(lab, {shared, cards}) {
    return lab.modules.view.hoverTooltip((view, at) => {
        const line = view.state.doc.lineAt(at), found = shared.instructionAt(line.text, at - line.from);
        const isOnWord = found && found.from <= at - line.from && at - line.from <= found.to;
        if (!isOnWord) return null;
        const create = () => ({dom: cardElement(lab, cards.inWords(cards.card(found.text)))});
        return {pos: line.from + found.from, end: line.from + found.to, above: false, create};
    });
}

/** A card in words as the front panel shows it. */
export function cardElement({t}, {form, does, flags, bytes, states}) {
    const made = document.createElement("div");
    made.className = "lab80-card";
    made.append(element("strong", form), element("p", does), element("p", t("Flags: {0}", [flags]), "lab80-faint"),
        element("p", t("{0}; Intel's states: {1}", [bytes, states]), "lab80-faint"));
    return made;
}

const element = (tag, textContent, className = "") => Object.assign(document.createElement(tag), {textContent, className});

/** Answers the requests for help at the cursor on a kernel's connection, those of Shift and Tab among them. The kernel's own
 *  answers are empty. */
export function answerOn(kernel, {modules}, {shared, cards}) {
    kernel.requestInspect = async ({code, cursor_pos: cursor}) => {
        const at = modules.coreutils.Text.charIndexToJsIndex(Math.min(cursor, code.length), code);
        const found = shared.instructionAt(code, at), data = found ? {"text/plain": cards.textOf(cards.card(found.text))} : {};
        return {content: {status: "ok", found: found !== null, data, metadata: {}}};
    };
}
