// What an editor has whose text is in the assembler's language: colours, columns, marks of faults, and cards.

// The kinds of words, and for each the tag of CodeMirror that pages with colours of their own take for it.
const TAGS = {
    transfer: "keyword", arithmetic: "keyword", logical: "keyword", branch: "keyword", stack: "keyword", directive: "meta",
    operator: "operator", register: "atom", label: "labelName", name: "variableName", number: "number", string: "string",
    comment: "comment", fault: "invalid",
};

/** The class of an editor in this language, by which keys find it. */
export const EDITOR = "lab80-editor";

/** The language and what belongs to it, as a page's registry of languages wants it. */
export function languageOf(lab, files) {
    const {LanguageSupport, indentUnit} = lab.modules.language, {EditorView} = lab.modules.view;
    const {EditorState, Prec} = lab.modules.state, {COLUMN} = files.shared;
    const coloured = colours(lab, files);
    return new LanguageSupport(coloured.language, [
        coloured.style,
        EditorView.editorAttributes.of({class: EDITOR}),
        Prec.highest([indentUnit.of(" ".repeat(COLUMN)), EditorState.tabSize.of(COLUMN)]),
        lab.faults.extension,
        lab.parts.help.hover(lab, files),
    ]);
}

/** The language, and the classes of its words, like `lab80-label`. */
function colours(lab, {shared}) {
    const {HighlightStyle, StreamLanguage, syntaxHighlighting} = lab.modules.language, {Tag, tags} = lab.modules.highlight;
    const tokenTable = Object.fromEntries(Object.entries(TAGS).map(([kind, name]) => [kind, Tag.define(tags[name])]));
    const classes = Object.entries(tokenTable).map(([kind, tag]) => ({tag, class: `lab80-${kind}`}));
    const language = StreamLanguage.define({
        name: "i8080", tokenTable, languageData: {commentTokens: {line: ";"}},
        startState: () => ({column: 0}),
        indent: ({column}) => column,
        token(stream, state) {
            if (stream.sol()) state.column = shared.columnAfter(stream.string, state.column);
            const {to, kind} = shared.tokenAt(stream.string, stream.pos);
            stream.pos = to;
            return kind || null;
        },
    });
    return {language, style: syntaxHighlighting(HighlightStyle.define(classes))};
}
