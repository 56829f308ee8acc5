// The text of a cell: coloured, with a margin for breakpoints, and if it may be changed with a field over it.
import {cards} from "../cards.js";
import {make} from "../panel/dom.js";
import {COLUMN, columnAfter, tokens} from "../shared.js";

const WITH_CARD = new Set(cards.map(each => each.mnemonic));

/** The tokens of a line, coloured by kind; instructions have cards. */
const coloured = text => tokens(text).map(({kind, text: word}) => {
    if (!kind) return word;
    const made = make("span", {className: kind}, word), mnemonic = word.toUpperCase();
    if (WITH_CARD.has(mnemonic)) made.dataset.card = mnemonic;
    return made;
});

function marked(line, {from, to}) {
    const mark = make("mark", {}, line.slice(from - 1, to - 1) || " ");
    return [...coloured(line.slice(0, from - 1)), mark, ...coloured(line.slice(to - 1))];
}

// The most characters that are coloured at each key.
const MOST_COLOURED = 20000;

export class Field {
    /** Takes the place of a listing in the page. `onEdit` is called when the text was changed, `onMargin` with the number of a
     *  line in whose margin was clicked. A field without `onEdit` can't be changed. */
    constructor(listing, {label, onEdit, onMargin}) {
        this.given = listing.textContent;
        this.marks = {fault: null, breaks: new Set(), current: 0};
        this.lines = make("pre", {className: "lines"});
        this.element = make("div", {className: "field"}, this.lines);
        if (onEdit) this.addArea(label, onEdit);
        listing.replaceWith(this.element);
        this.lines.onclick = ({target}) => {
            if (target.classList.contains("margin")) onMargin(Number(target.parentElement.dataset.line));
        };
        this.onMargin = onMargin;
        this.paint();
    }

    addArea(label, onEdit) {
        this.lines.setAttribute("aria-hidden", "true");
        const plain = {spellcheck: false, autocapitalize: "off", autocomplete: "off", autocorrect: "off"};
        this.area = make("textarea", {value: this.given, "aria-label": label, "aria-describedby": "leaving", ...plain});
        this.area.oninput = () => {
            this.marks.fault = null;
            this.paint();
            onEdit();
        };
        this.area.onkeydown = event => this.onKey(event);
        this.area.onblur = () => { this.isLeaving = false; };
        this.element.append(this.area);
    }

    get text() {
        return this.area ? this.area.value : this.given;
    }

    set text(text) {
        this.area.value = text;
        this.mark({fault: null});
    }

    /** Changes some of the marks: {fault, breaks, current}, that is a fault's place {line, from, to} or null, the lines with
     *  breakpoints, and the line at which the program is stopped, or 0. */
    mark(marks) {
        Object.assign(this.marks, marks);
        this.paint();
    }

    paint() {
        const {fault, breaks, current} = this.marks, isLong = this.text.length > MOST_COLOURED;
        this.lines.replaceChildren(...this.text.split("\n").map((text, before) => {
            const line = before + 1, isFaulty = fault && fault.line === line;
            const words = isFaulty ? marked(text, fault) : isLong ? [text] : coloured(text);
            const margin = make("span", {className: "margin", title: "Sets or removes a breakpoint"});
            const made = make("span", {className: "line", "data-line": line}, margin, ...words, "\n");
            for (const [name, isSo] of Object.entries({faulty: isFaulty, broken: breaks.has(line), current: current === line})) {
                made.classList.toggle(name, Boolean(isSo));
            }
            return made;
        }));
    }

    /** Tab goes to the next column, unless it comes after Escape, and Enter to the column that the language wants. F9 sets or
     *  removes a breakpoint. Shift-Enter and Control-Enter are the cell's. */
    onKey(event) {
        const isPlain = !event.shiftKey && !event.ctrlKey && !event.altKey && !event.metaKey && !event.isComposing;
        if (isPlain && event.key === "Tab" && !this.isLeaving) this.insert(event, " ".repeat(COLUMN - this.column() % COLUMN));
        else if (isPlain && event.key === "Enter") this.insert(event, "\n" + " ".repeat(this.nextColumn()));
        else if (isPlain && event.key === "F9") {
            event.preventDefault();
            this.onMargin(this.line());
        }
        if (event.key !== "Shift") this.isLeaving = event.key === "Escape";
    }

    linesBefore() {
        return this.area.value.slice(0, this.area.selectionStart).split("\n");
    }

    /** The number of the caret's line. */
    line() {
        return this.linesBefore().length;
    }

    column() {
        return [...this.linesBefore().pop()].reduce((at, each) => each === "\t" ? at + COLUMN - at % COLUMN : at + 1, 0);
    }

    nextColumn() {
        return this.linesBefore().reduce((column, line) => columnAfter(line, column), 0);
    }

    /** Inserts a text as if typed, so that it can be undone. */
    insert(event, text) {
        event.preventDefault();
        if (document.execCommand("insertText", false, text)) return;
        this.area.setRangeText(text, this.area.selectionStart, this.area.selectionEnd, "end");
        this.area.oninput();
    }
}
