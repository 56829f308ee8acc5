// What is below a cell: what its program prints, its error, the page's notes, and the line that it asks for.
import {make} from "../panel/dom.js";

// The most characters that are kept of what a program prints, and milliseconds between two times that they are drawn.
const MOST_CHARACTERS = 100000, PAUSE = 40;

/** A sentence whose code is in backticks, as nodes. */
export const withCode = sentence =>
    sentence.split("`").map((part, at) => at % 2 === 1 ? make("code", {}, part) : part).filter(part => part !== "");

export class Output {
    /** Is put behind an element. */
    constructor(before) {
        this.text = make("pre", {className: "printed", role: "log", "aria-label": "Output", hidden: true});
        this.error = make("p", {className: "error", role: "status"});
        this.note = make("p", {className: "note", role: "status"});
        this.element = make("div", {className: "output"}, this.text, this.error, this.note);
        this.waiting = "";
        before.after(this.element);
    }

    clear() {
        clearTimeout(this.timer);
        Object.assign(this, {waiting: "", timer: 0, count: 0, last: ""});
        this.text.replaceChildren();
        this.text.hidden = true;
        this.error.replaceChildren();
        this.say("");
        this.endAsking();
    }

    print(text) {
        this.waiting += text;
        this.last = (this.last + text).slice(-80);
        if (!this.timer) this.timer = setTimeout(() => this.flush(), PAUSE);
    }

    /** Draws what was printed. Of more than is kept the oldest goes, and the first line says so. */
    flush() {
        clearTimeout(this.timer);
        const {text, waiting} = this;
        Object.assign(this, {timer: 0, waiting: ""});
        if (waiting === "") return;
        text.hidden = false;
        text.append(waiting.slice(-MOST_CHARACTERS));
        this.count += waiting.length;
        let size = text.textContent.length;
        while (size > MOST_CHARACTERS && text.childNodes.length > 1) {
            size -= text.firstChild.textContent.length;
            text.firstChild.remove();
        }
        text.classList.toggle("cut", this.count > size);
    }

    /** Shows an error, and what to do about it. */
    showError(name, sentence) {
        this.flush();
        this.error.replaceChildren(make("strong", {}, name), ...sentence ? [" ", ...withCode(sentence)] : []);
    }

    say(sentence, ...more) {
        this.note.classList.remove("good");
        this.note.replaceChildren(...withCode(sentence), ...more);
    }

    /** Says something good. */
    praise(sentence) {
        this.say(sentence);
        this.note.classList.add("good");
    }

    /** Asks for a line, and gives it to a function. */
    ask(done) {
        this.endAsking();
        this.flush();
        const field = make("input", {type: "text", autocomplete: "off", spellcheck: false, autocapitalize: "off"});
        const label = make("label", {}, "The program asks ", field);
        this.form = make("form", {className: "asking"}, label, make("button", {}, "Type"));
        this.form.onsubmit = event => {
            event.preventDefault();
            this.endAsking();
            done(field.value);
        };
        this.element.append(this.form);
        field.focus({preventScroll: true});
    }

    endAsking() {
        if (this.form) this.form.remove();
        this.form = null;
    }
}
