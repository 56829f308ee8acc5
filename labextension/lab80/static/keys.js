// Tab in cells of this language: it goes to the next column of eight, or completes the part of a word before the cursor.

/** Listens before the page's own shortcuts do, which take Tab for completions wherever a line has begun. */
export function listen(lab) {
    addEventListener("keydown", event => {
        const isTab = event.key === "Tab" && !event.shiftKey && !event.ctrlKey && !event.altKey && !event.metaKey;
        const element = isTab && !event.isComposing && event.target instanceof Element && event.target.closest(".lab80-editor");
        if (!element || element.closest(".jp-mod-completer-active")) return;
        const view = lab.modules.view.EditorView.findFromDOM(element);
        if (!view || view.state.readOnly) return;
        const found = completions(lab, view), isPart = lab.files.shared.isPartOfWord(found);
        if (isPart && found.matches.length > 1) return;
        event.preventDefault();
        event.stopImmediatePropagation();
        if (isPart) complete(view, found);
        else toColumn(lab, view);
    }, true);
}

/** The completions before the cursor: {word, matches}. If there are several, the page's own Tab offers them. */
function completions({files, parts, tracker}, {state, dom}) {
    if (!state.selection.main.empty) return {word: "", matches: []};
    const text = state.doc.toString(), panel = tracker.find(({node}) => node.contains(dom));
    const names = parts.completion.namesAround(files, panel, text);
    return files.shared.completionsAt(text, state.selection.main.head, names);
}

function complete(view, {word, matches: [insert]}) {
    const to = view.state.selection.main.head, from = to - word.length;
    view.dispatch({changes: {from, to, insert}, selection: {anchor: from + insert.length}, userEvent: "input.complete"});
}

/** Goes to the next multiple of eight columns, or moves the selected lines there. */
function toColumn({modules, files}, view) {
    const {state} = view, {EditorSelection, countColumn} = modules.state, {COLUMN} = files.shared;
    if (!state.selection.main.empty) return indentLines(view, COLUMN);
    view.dispatch(state.changeByRange(({head}) => {
        const line = state.doc.lineAt(head), column = countColumn(line.text, COLUMN, head - line.from);
        const insert = " ".repeat(COLUMN - column % COLUMN);
        return {changes: {from: head, insert}, range: EditorSelection.cursor(head + insert.length)};
    }), {scrollIntoView: true, userEvent: "input"});
}

/** Moves the lines of the selections to the right. */
function indentLines(view, count) {
    const {doc, selection} = view.state, starts = new Set();
    for (const {from, to} of selection.ranges) {
        for (let at = from; at <= to;) {
            const line = doc.lineAt(at);
            if (line.length > 0) starts.add(line.from);
            at = line.to + 1;
        }
    }
    view.dispatch({changes: [...starts].map(from => ({from, insert: " ".repeat(count)})), userEvent: "input.indent"});
}
