// The marks of faults in cells: the word, its line, and beneath the line what to do. They last until the text changes.

/** What faults need of CodeMirror, once for all editors: {extension, showFault, showNote, hide, placeOf}. */
export function make({modules}) {
    const {StateEffect, StateField} = modules.state, {EditorView} = modules.view;
    const shown = StateEffect.define(), none = {marks: modules.view.Decoration.none, place: null};
    const field = StateField.define({
        create: () => none,
        update(before, {docChanged, effects, newDoc}) {
            const last = effects.filter(each => each.is(shown)).pop();
            if (last) return last.value ? {marks: last.value.marks(newDoc), place: last.value.place} : none;
            return docChanged ? none : before;
        },
        provide: given => EditorView.decorations.from(given, ({marks}) => marks),
    });
    /** Shows something in an editor that has, or gets, the field. */
    const dispatch = (view, value) => {
        const isNew = view.state.field(field, false) === undefined;
        if (isNew && !value) return;
        view.dispatch({effects: [...isNew ? [StateEffect.appendConfig.of(field)] : [], shown.of(value)]});
    };
    return {
        extension: field,
        showFault: (view, fault) => dispatch(view, {marks: doc => faultMarks(modules, doc, fault), place: fault}),
        showNote: (view, text) => dispatch(view, {marks: doc => noteMarks(modules, doc, text), place: null}),
        hide: view => dispatch(view, null),
        /** The shown fault, {line, from}, or null. */
        placeOf: view => (view.state.field(field, false) || none).place,
    };
}

/** The marks of a fault as errors.js explains it; none if the text has no such line. */
function faultMarks(modules, doc, {line: number, from, to, sentence}) {
    const {Decoration} = modules.view;
    if (number > doc.lines) return Decoration.none;
    const line = doc.line(number), ends = [from - 1, to - 1].map(at => Math.min(line.from + at, line.to));
    const word = ends[0] < ends[1] ? [Decoration.mark({class: "lab80-marked"}).range(...ends)] : [];
    const beneath = beneathLine(modules, () => sentenceBeneath(sentence, from));
    return Decoration.set([Decoration.line({class: "lab80-faulty"}).range(line.from), ...word, beneath.range(line.to)], true);
}

function noteMarks(modules, doc, text) {
    const note = beneathLine(modules, () => element("div", text, "lab80-note"));
    return modules.view.Decoration.set([note.range(doc.length)]);
}

/** A block beneath a line: the element that a function makes. */
function beneathLine({view: {Decoration, WidgetType}}, toDOM) {
    const widget = Object.assign(new class extends WidgetType {}(), {toDOM});
    return Decoration.widget({widget, side: 1, block: true});
}

/** A sentence that begins below a column. Code in it is in backticks; all of it is inserted as text. */
function sentenceBeneath(sentence, column) {
    const told = element("span", "", "lab80-why"), beneath = element("div", "", "lab80-beneath");
    sentence.split("`").forEach((part, at) => told.append(at % 2 ? element("code", part) : part));
    beneath.style.paddingLeft = `calc(6px + ${Math.min(column - 1, 32)}ch)`;
    beneath.setAttribute("role", "alert");
    beneath.append(told);
    return beneath;
}

const element = (tag, textContent, className = "") => Object.assign(document.createElement(tag), {textContent, className});
