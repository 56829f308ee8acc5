// Completions: instructions and directives where an operation stands, the names that the notebook's cells define elsewhere.

const isOurs = ({editor}) => editor !== null && editor !== undefined && editor.host.querySelector(".lab80-editor") !== null;

/** The names that the cells of an editor's notebook define, or else those of its own text. */
export function namesAround({shared}, widget, text) {
    const cells = widget && widget.content && widget.content.widgets || [];
    const texts = cells.filter(({model}) => model && model.type === "code").map(({model}) => model.sharedModel.getSource());
    return (texts.length > 0 ? texts : [text]).flatMap(shared.namesIn);
}

/** The source of completions for cells in this language, as the page's manager wants it. */
export function providerOf(lab) {
    const {Text} = lab.modules.coreutils;
    return {
        identifier: "CompletionProvider:lab80", rank: 600, renderer: null,
        isApplicable: async context => isOurs(context),
        async fetch({text, offset}, {widget}) {
            const files = await lab.parts.files.load(lab), at = Text.charIndexToJsIndex(offset, text);
            const {word, matches} = files.shared.completionsAt(text, at, namesAround(files, widget, text));
            return {start: offset - word.length, end: offset, items: matches.map(match => itemOf(files, match))};
        },
    };
}

/** An instruction has its card beside the list, if the page shows documentation there. */
function itemOf({shared, cards}, word) {
    const kind = shared.KIND_OF.get(word.toUpperCase()), card = kind && cards.card(word);
    return card ? {label: word, type: "instruction", documentation: cards.textOf(card)} : {label: word, type: kind || "name"};
}

/** The page's other source, all words of a cell, doesn't know the language, and passes this one's cells over. */
export function passOver(manager) {
    const other = manager.getProviders && manager.getProviders().get("CompletionProvider:context");
    if (!other) return;
    const isApplicable = other.isApplicable.bind(other);
    other.isApplicable = async context => !isOurs(context) && isApplicable(context);
}
