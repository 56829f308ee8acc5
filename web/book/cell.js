// A cell of a lesson: its text, the buttons beside it, and what its runs show below it.
import {ONLY_LOADED, explainEnd, explainError, isOnlyLoaded} from "../errors.js";
import {ask, make} from "../panel/dom.js";
import {board, execute, interrupt, typeLine} from "./board.js";
import {Field} from "./field.js";
import {Output} from "./output.js";
import {endWatch, watchRun} from "./watch.js";

// What students run and can't change, as in the notebooks.
const FIXED = new Set(["tools", "judge"]);

// How a judge ends if its exercise is right.
const RIGHT = /(?:^|\n)right\n$/;

export class Cell {
    /** `page` has what a cell asks of its page, as book.js defines it. */
    constructor(section, page) {
        const {cell, kind} = section.dataset;
        Object.assign(this, {section, page, id: cell, kind, isDue: false, isBusy: false, hasBegun: false, hasFailed: false});
        this.lastBoard = 0;
        const onMargin = line => page.toggle(this, line), onEdit = FIXED.has(kind) ? undefined : () => this.edited();
        this.field = new Field(section.querySelector("pre"), {label: section.getAttribute("aria-label"), onEdit, onMargin});
        this.button = make("button", {type: "button", className: "run", onclick: () => this.press()});
        this.asItWas = make("button", {type: "button", title: "The lesson's text in place of yours"}, "As it was");
        this.asItWas.onclick = () => this.restore();
        this.count = make("span", {className: "count"});
        section.append(make("div", {className: "beside"}, this.button, this.asItWas, ...this.fingers(), this.count));
        this.output = new Output(section.lastChild);
        this.output.clear();
        section.addEventListener("keydown", event => this.onKey(event));
        this.show();
    }

    /** A button in the place of a margin that is too narrow for fingers. */
    fingers() {
        const title = "Sets a breakpoint on the line with the cursor, or removes it";
        const button = make("button", {type: "button", className: "for-fingers", title}, "Breakpoint");
        button.onclick = () => this.page.toggle(this, this.field.line());
        return this.field.area ? [button] : [];
    }

    get text() {
        return this.field.text;
    }

    isChanged() {
        return this.text !== this.field.given;
    }

    /** Takes a text that was kept; without one the lesson's own. */
    take(text = this.field.given) {
        if (this.field.area && text !== this.text) this.field.text = text;
        this.show();
    }

    edited() {
        this.page.keep(this);
        this.show();
    }

    async restore() {
        if (!await ask("This drops your text of this cell.", "As it was")) return;
        this.take();
        this.edited();
        this.field.area.focus();
    }

    /** Shift-Enter runs the cell and goes on to the next one, Control-Enter runs it. */
    onKey(event) {
        if (event.key !== "Enter" || !event.shiftKey && !event.ctrlKey || event.target instanceof HTMLInputElement) return;
        event.preventDefault();
        this.run();
        if (event.shiftKey) this.page.goOn(this);
    }

    focus() {
        (this.field.area || this.button).focus();
    }

    show() {
        const {isBusy, hasBegun} = this;
        this.button.textContent = isBusy && hasBegun ? "\u25A0 End" : isBusy ? "Waits" : "\u25B6 Run";
        this.button.title = isBusy ? "Ends the run" : "Runs the cell (Shift+Enter)";
        this.button.disabled = isBusy && !hasBegun;
        this.asItWas.hidden = !this.isChanged();
        this.section.classList.toggle("busy", isBusy);
        this.page.changed();
    }

    press() {
        if (this.isBusy) interrupt();
        else this.run();
    }

    run() {
        if (this.isBusy) return;
        const text = this.text;
        this.output.clear();
        this.field.mark({fault: null});
        this.isDue = !execute(text, (type, content, header) => this.hear(type, content, header));
        if (this.isDue) return this.output.say(`It runs as soon as the board is there: ${board.said}.`);
        Object.assign(this, {isBusy: true, hasBegun: false, hasFailed: false, number: 0});
        Object.assign(this, {lastText: text, lastBoard: board.number});
        this.count.textContent = "[*]";
        this.show();
    }

    /** Gets a message for its run, as board.js says. */
    hear(type, content, header) {
        if (type === "busy") this.begin();
        else if (type === "execute_input") this.number = content.execution_count;
        else if (type === "stream") this.output.print(content.text);
        else if (type === "error") this.fail(content);
        else if (type === "input_request") this.output.ask(line => typeLine(line, header));
        else if (type === "idle") this.end();
        else if (type === "lost") this.lose();
    }

    begin() {
        this.hasBegun = true;
        this.page.begun(this);
        watchRun(this);
        this.show();
    }

    fail({ename, evalue, traceback}) {
        this.hasFailed = true;
        const found = ename === "AssemblyError" ? explainError(evalue, this.lastText, this.page.around(this)) : null;
        const isSame = this.text === this.lastText, name = evalue ? traceback.join("\n") : ename;
        if (found && isSame) this.showPlace(found);
        this.output.showError(name, found ? found.sentence : explainEnd(ename, evalue));
        if (/ Undefined$/.test(evalue) && this.page.isAboveNew(this)) this.offerAbove();
    }

    showPlace(fault) {
        const folded = this.section.querySelector("details");
        if (folded) folded.open = true;
        this.field.mark({fault});
    }

    /** Says at which line the run is stopped, or with 0 that it isn't any more. */
    showStop(line) {
        const folded = this.section.querySelector("details");
        if (folded && line > 0) folded.open = true;
        this.output.say(line > 0 ? `Stopped at line ${line}: the panel has Continue and the steps.` : "");
        if (line === 0 && this.isBusy) watchRun(this);
    }

    /** Offers to run the cells above that haven't run on this board, one of which may define a name. */
    offerAbove() {
        const button = make("button", {type: "button"}, "Run the cells above, and this one");
        button.onclick = () => this.page.runAbove(this);
        this.output.say("", button);
    }

    end() {
        this.rest();
        this.output.flush();
        if (this.kind === "judge" && !this.hasFailed) this.page.judged(this, RIGHT.test(this.output.last));
        else if (!this.hasFailed && isOnlyLoaded(this.lastText)) this.output.say(ONLY_LOADED);
    }

    lose() {
        this.rest();
        this.output.flush();
        this.output.say("The board is gone, and the run with it.");
    }

    rest() {
        endWatch(this);
        Object.assign(this, {isBusy: false, hasBegun: false});
        this.output.endAsking();
        this.count.textContent = this.number ? `[${this.number}]` : "";
        this.show();
    }
}
