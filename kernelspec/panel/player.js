// The player of films: a run as a page saw it, moment by moment. The class uses nothing outside itself, since its text is in the
// file of each film, which plays there without a board, a server or a network.

export class Player {
    static VERSION = 1;

    // The most of everything in a film.
    static MOST = {moments: 1000, texts: 40, characters: 4000000, name: 300, list: 700, pieces: 8};

    static REGISTERS = ["A", "B", "C", "D", "E", "H", "L", "SP", "PC"];
    static FLAGS = ["S", "Z", "AC", "P", "CY", "INTE"];

    // Lines of a program that are drawn before and after the current one.
    static AROUND = 150;

    // Its texts in English. A film, and the page that plays one, put those of their language in the place.
    static WORDS = {
        play: "Play", pause: "Pause", before: "Moment before", after: "Moment after", moment: "Moment", speed: "Speed",
        rate: "{0} a second", count: "{0} of {1}",
        program: "Program", registers: "Registers and flags", why: "Why", changed: "Changed", memory: "Memory seen",
        lamps: "Lamps and switches", calls: "Call stack", output: "Console", all: "All moments as text", keys: "Keys",
        lamp: "Lamps {0}", switches: "{0}, switches {1}", changedValue: "{0}, changed",
        none: "nothing", noText: "This moment's program isn't in the film.",
        noOutput: "What was printed up to here isn't in the film.",
        keyList: "Space plays and pauses; left and right arrow go to the moment before and after; Home and End to the first and "
            + "the last one; + and - change the speed.",
        limits: "The film has what its page saw of the board: the stops of a run. What ran between two stops isn't in it, nor "
            + "memory that the page didn't look at.",
        step: "One instruction after the moment before.", gap: "Other instructions may have run since the moment before.",
        end: "The run has ended.", told: "Moment {0} of {1}{2}.", ofStop: ", stop {0}", ofLine: ", line {0}", ofCode: ", before {0}",
        change: "{0} from {1} to {2}", sinceThen: "Since the moment before: {0}.",
        noFilm: "This file has no film that can be played: {0}.", cut: "it is damaged, or was cut off",
        version: "it is of version {0}, and this player plays version {1}",
        wrong: "it is damaged: it has no {0} that can be shown", wrongMoment: "it is damaged: moment {0} has no {1} that can be shown",
        many: "it has more than {0} moments",
    };

    // What a film may lack, by its names in English.
    static LACKS = {
        title: "title", program: "program", console: "console", left: "list of what is left out", moments: "moments", values: "values",
        registers: "registers", flags: "flags", line: "line", instruction: "instruction", lamps: "lamps",
        place: "place in the console", changes: "changes", memory: "memory", explanation: "explanation",
    };

    /** A text with values in the place of {0}, {1} and so on. */
    static say(name, ...values) {
        return Player.WORDS[name].replace(/\{(\d)\}/g, (_, at) => values[at]);
    }

    static STYLE = `
        :host { color-scheme: light dark; --ink: #20242b; --faint: #5c626d; --edge: #cfccc3; --well: #fff; --card: #fbfaf7;
            --accent: #1f5fae; --new: #a33c00; --now: #fff0b8; --now-edge: #d9a400; --control: #f1efe9; display: block;
            font: 14px/1.4 system-ui, -apple-system, "Segoe UI", Roboto, "DejaVu Sans", sans-serif; color: var(--ink); }
        @media (prefers-color-scheme: dark) { :host { --ink: #dde2ea; --faint: #98a1b0; --edge: #363c47; --well: #171a20;
            --card: #1e2229; --accent: #7fb2f2; --new: #ffb86b; --now: #4a4218; --now-edge: #d9b43a; --control: #2a2f38; } }
        * { box-sizing: border-box; }
        h2 { font-size: 12px; letter-spacing: .06em; text-transform: uppercase; color: var(--faint); margin: 0 0 .3em; }
        button, select { font: inherit; color: inherit; background: var(--control); border: 1px solid var(--edge);
            border-radius: 5px; min-height: 28px; min-width: 32px; padding: .1em .6em; cursor: pointer; }
        button:disabled { opacity: .45; cursor: default; }
        :focus-visible { outline: 2px solid var(--accent); outline-offset: 1px; }
        .bar { display: flex; flex-wrap: wrap; gap: .4em .6em; align-items: center; position: sticky; top: 0; z-index: 1;
            background: var(--card); border: 1px solid var(--edge); border-radius: 8px; padding: .4em .6em; }
        .bar input { flex: 1 1 9em; min-width: 6em; min-height: 24px; accent-color: var(--accent); }
        .play { min-width: 5em; }
        .count { font-family: var(--mono, monospace); color: var(--faint); min-width: 6.5em; text-align: right; }
        .told { margin: .5em .1em; min-height: 2.8em; }
        .parts { display: grid; grid-template-columns: minmax(0, 1.4fr) minmax(0, 1fr); gap: .6em; align-items: start; }
        .side, .main { display: grid; gap: .6em; min-width: 0; }
        section { background: var(--card); border: 1px solid var(--edge); border-radius: 8px; padding: .45em .65em; min-width: 0; }
        pre, .mono { font: 13px/1.5 "DejaVu Sans Mono", ui-monospace, Menlo, Consolas, monospace; margin: 0; }
        .text { height: 19em; overflow: auto; background: var(--well); border: 1px solid var(--edge); border-radius: 5px;
            padding: .2em 0; position: relative; }
        .text div { white-space: pre; min-width: max-content; padding: 0 1em 0 .3em; border-left: 3px solid transparent;
            tab-size: 8; unicode-bidi: isolate; direction: ltr; }
        .text div.now { background: var(--now); border-left-color: var(--now-edge); }
        .text i { font-style: normal; color: var(--faint); display: inline-block; width: 3.4em; text-align: right;
            margin-right: 1em; user-select: none; }
        .text .now i { color: inherit; } .comment { color: var(--faint); } .now .comment { color: inherit; }
        .output { height: 7em; overflow: auto; white-space: pre-wrap; overflow-wrap: anywhere; background: #10130f;
            color: #a8e6a1; border-radius: 5px; padding: .3em .5em; }
        dl { display: flex; flex-wrap: wrap; gap: .1em 1em; margin: 0; }
        dl div { display: flex; gap: .4em; }
        dt { color: var(--faint); } dd { margin: 0; }
        .flags { margin-top: .3em; }
        .new { color: var(--new); font-weight: 700; text-decoration: underline dotted; text-underline-offset: 3px; }
        ul, ol { margin: 0; padding-left: 1.3em; } li { overflow-wrap: anywhere; }
        .lamps { display: flex; gap: .35em; align-items: center; flex-wrap: wrap; }
        .lamp { width: 1.1em; height: 1.1em; border-radius: 50%; background: #4a1a1a; border: 1px solid #00000055;
            forced-color-adjust: none; }
        .lamp.on { background: #ff4b3a; box-shadow: 0 0 6px #ff4b3a99; }
        table { border-collapse: collapse; } td, th { padding: 0 .35em 0 0; font-weight: 400; text-align: left; }
        th { color: var(--faint); }
        .memory { overflow-x: auto; max-height: 15em; overflow-y: auto; }
        .note { color: var(--faint); margin: .5em .1em; }
        summary { cursor: pointer; min-height: 24px; } details { margin: .5em .1em; } .all ol { max-height: 22em; overflow: auto; }
        .fault { color: var(--new); font-weight: 600; }
        @media (max-width: 700px) { .parts { grid-template-columns: minmax(0, 1fr); } .text { height: 13em; }
            .main, .side { display: contents; } section { order: 9; } .program { order: 1; } .registers { order: 2; }
            .changes { order: 3; } .reasons { order: 4; } .console { order: 5; } .lights { order: 6; } .count { min-width: 0; } }
        @media (forced-colors: active) { .text div.now { outline: 1px solid Highlight; outline-offset: -1px; } }
        @media print { .bar { display: none; } }`;

    // ---- what a film must be

    /** Why something can't be played as a film; an empty text if it can. */
    static faultOf(film) {
        const {WORDS, LACKS, MOST, say} = Player, isText = (it, most = MOST.name) => typeof it === "string" && it.length <= most;
        const isList = (it, most, isOne) => Array.isArray(it) && it.length <= most && it.every(isOne);
        const wrong = name => say("wrong", LACKS[name]);
        if (!film || typeof film !== "object") return WORDS.cut;
        if (film.version !== Player.VERSION) return say("version", String(film.version).slice(0, 20), Player.VERSION);
        if (!isText(film.title)) return wrong("title");
        if (!isList(film.texts, MOST.texts, each => isText(each, MOST.characters))) return wrong("program");
        if (!isText(film.output, MOST.characters)) return wrong("console");
        if (!isList(film.left, MOST.list, each => isText(each))) return wrong("left");
        if (!Array.isArray(film.moments) || film.moments.length === 0) return wrong("moments");
        if (film.moments.length > MOST.moments) return say("many", MOST.moments);
        for (const [at, moment] of film.moments.entries()) {
            const lack = Player.lackOf(moment, film, isText, isList);
            if (lack) return say("wrongMoment", at + 1, LACKS[lack]);
        }
        return "";
    }

    /** What a moment lacks; an empty text if it lacks nothing. */
    static lackOf(moment, film, isText, isList) {
        const {MOST, REGISTERS, FLAGS} = Player, isNumber = (it, most) => Number.isInteger(it) && it >= 0 && it <= most;
        const isPiece = it => Array.isArray(it) && isNumber(it[0], 65535) && typeof it[1] === "string"
            && it[1].length <= 1024 && /^(?:[0-9A-F]{2})*$/.test(it[1]);
        if (!moment || typeof moment !== "object") return "values";
        const {registers, flags, memory, changed, why, calls, printed} = moment;
        const hasAll = (list, names, isOne) => isList(list, names.length, isOne) && list.length === names.length;
        if (!hasAll(registers, REGISTERS, each => isNumber(each, 65535))) return "registers";
        if (!hasAll(flags, FLAGS, each => isText(each, 8))) return "flags";
        if (!isNumber(moment.text + 1, film.texts.length) || !isNumber(moment.line, 1e6)) return "line";
        if (!isNumber(moment.number, 1e9) || !isText(moment.code) || typeof moment.step !== "boolean") return "instruction";
        if (!isNumber(moment.lamps, 255) || !isNumber(moment.switches, 255)) return "lamps";
        if (!isNumber(printed + 1, film.output.length + 1)) return "place";
        if (!isList(changed, MOST.list, each => isList(each, 3, part => isText(part, 20)) && each.length === 3)) return "changes";
        if (!isList(memory, MOST.pieces, isPiece)) return "memory";
        return isList(why, 20, each => isText(each, 1000)) && isList(calls, 100, each => isText(each)) ? "" : "explanation";
    }

    /** A text whose signs are all seen: those that turn the direction of writing, and others without a shape, by their numbers. */
    static seen(text) {
        const number = sign => `\u2039U+${sign.charCodeAt(0).toString(16).toUpperCase().padStart(4, "0")}\u203A`;
        const unseen = /[\0-\x08\x0B-\x1F\x7F-\x9F\u061C\u200B-\u200F\u2028-\u202E\u2060-\u206F\uFEFF]/g;
        return text.replace(/\r(?=\n|$)/g, "").replace(unseen, number);
    }

    // ---- elements

    /** An element. What it contains is inserted as text or as elements, never as HTML. */
    static make(tag, members = {}, ...children) {
        const made = document.createElement(tag);
        for (const [name, value] of Object.entries(members)) {
            if (name in made) made[name] = value;
            else made.setAttribute(name, value);
        }
        made.append(...children);
        return made;
    }

    static hex(value, digits = 2) {
        return value.toString(16).toUpperCase().padStart(digits, "0");
    }

    constructor(host, film) {
        const {make} = Player, sheet = new CSSStyleSheet(), root = host.shadowRoot || host.attachShadow({mode: "open"});
        sheet.replaceSync(Player.STYLE);
        root.adoptedStyleSheets = [sheet];
        Object.assign(this, {film, root, at: 0, timer: 0, drawnText: -1, drawnFrom: 0});
        this.parts = this.makeParts();
        const parts = make("div", {className: "parts"}, ...this.columns());
        root.replaceChildren(this.bar(), this.parts.told, parts, this.list(), ...this.notes());
        host.onkeydown = event => this.onKey(event);
        this.go(0);
    }

    makeParts() {
        const {WORDS, make} = Player;
        return {
            told: make("p", {className: "told", role: "status"}),
            text: make("div", {className: "text mono", tabIndex: 0, role: "group", "aria-label": WORDS.program}),
            output: make("pre", {className: "output", tabIndex: 0, "aria-label": WORDS.output}),
            values: make("div", {className: "mono"}), why: make("ul"), changed: make("div", {className: "mono"}),
            lamps: make("div", {className: "lamps mono"}), calls: make("div", {className: "mono"}),
            memory: make("div", {className: "memory mono", tabIndex: 0, "aria-label": WORDS.memory}),
        };
    }

    /** The program and what belongs to it, and beside it the values. */
    columns() {
        const {WORDS, make} = Player, {text, output, values, why, changed, lamps, calls, memory} = this.parts;
        const section = (name, label, content) =>
            make("section", {className: name, "aria-label": label}, make("h2", {}, label), content);
        return [make("div", {className: "main"}, section("program", WORDS.program, text), section("console", WORDS.output, output),
            section("reasons", WORDS.why, why)),
        make("div", {className: "side"}, section("registers", WORDS.registers, values), section("changes", WORDS.changed, changed),
            section("lights", WORDS.lamps, lamps), section("stack", WORDS.calls, calls), section("seen", WORDS.memory, memory))];
    }

    /** The buttons, the slider and the speed. */
    bar() {
        const {WORDS, make, say} = Player, last = this.film.moments.length - 1;
        const button = (className, text, label, work) =>
            make("button", {type: "button", className, "aria-label": label, title: label, onclick: work}, text);
        const rates = [1, 2, 5, 10, 20].map(rate => make("option", {value: rate, selected: rate === 2}, say("rate", rate)));
        Object.assign(this, {
            playButton: make("button", {type: "button", className: "play", onclick: () => this.toggle()}, WORDS.play),
            back: button("before", "\u25C0", WORDS.before, () => this.go(this.at - 1)),
            next: button("after", "\u25B6", WORDS.after, () => this.go(this.at + 1)),
            slider: make("input", {type: "range", className: "at", min: 0, max: last, value: 0, "aria-label": WORDS.moment}),
            rate: make("select", {className: "rate", "aria-label": WORDS.speed}, ...rates),
            count: make("output", {className: "count", "aria-live": "off"}),
        });
        this.slider.oninput = () => this.go(Number(this.slider.value));
        this.rate.onchange = () => this.timer && this.playOn();
        return make("div", {className: "bar", role: "group", "aria-label": this.film.title}, this.playButton, this.back, this.next,
            this.slider, this.count, this.rate);
    }

    /** All moments as text, made when it is opened. */
    list() {
        const {WORDS, make} = Player, details = make("details", {className: "all"}, make("summary", {}, WORDS.all));
        details.ontoggle = () => {
            if (!details.open || details.querySelector("ol")) return;
            const item = (_, at) => make("li", {}, this.tell(at), " ", this.film.moments[at].why.map(Player.seen).join(". "));
            details.append(make("ol", {}, ...this.film.moments.map(item)));
        };
        return details;
    }

    notes() {
        const {WORDS, make, seen} = Player, note = text => make("p", {className: "note"}, seen(text));
        return [...[WORDS.limits, ...this.film.left].map(note), note(`${WORDS.keys}: ${WORDS.keyList}`)];
    }

    // ---- moving

    go(to) {
        const last = this.film.moments.length - 1;
        this.at = Math.max(0, Math.min(last, to));
        this.draw();
    }

    toggle() {
        if (this.timer) return this.pause();
        if (this.at === this.film.moments.length - 1) this.go(0);
        this.playOn();
    }

    playOn() {
        clearInterval(this.timer);
        this.timer = setInterval(() => this.tick(), 1000 / Number(this.rate.value));
        this.showPlaying();
    }

    tick() {
        if (this.at === this.film.moments.length - 1) return this.pause();
        this.go(this.at + 1);
    }

    pause() {
        clearInterval(this.timer);
        this.timer = 0;
        this.showPlaying();
    }

    /** While the film plays, a screen reader isn't told each moment. */
    showPlaying() {
        this.playButton.textContent = this.timer ? Player.WORDS.pause : Player.WORDS.play;
        this.parts.told.setAttribute("aria-live", this.timer ? "off" : "polite");
    }

    onKey(event) {
        const [target] = event.composedPath(), isField = target.matches("select, input"), {length} = this.film.moments;
        if (event.ctrlKey || event.altKey || event.metaKey) return;
        const keys = {ArrowLeft: () => this.go(this.at - 1), ArrowRight: () => this.go(this.at + 1), Home: () => this.go(0),
            End: () => this.go(length - 1), "+": () => this.faster(1), "-": () => this.faster(-1)};
        const isSpace = event.key === " " && !target.matches("button, select, summary");
        const work = isSpace ? () => this.toggle() : keys[event.key];
        // the slider has arrows of its own, and so has the list of speeds
        if (!work || isField && !isSpace && event.key !== "+" && event.key !== "-") return;
        event.preventDefault();
        work();
    }

    faster(by) {
        this.rate.selectedIndex = Math.max(0, Math.min(this.rate.length - 1, this.rate.selectedIndex + by));
        if (this.timer) this.playOn();
    }

    // ---- drawing

    /** A moment in words. */
    tell(at) {
        const {WORDS, seen, say} = Player, {moments} = this.film, moment = moments[at], {number, line, code, changed, step} = moment;
        const since = at === 0 ? "" : step ? WORDS.step : code || number ? WORDS.gap : WORDS.end;
        const list = changed.map(each => say("change", ...each)).join(", ");
        const more = [number && say("ofStop", number), line && say("ofLine", line), code && say("ofCode", seen(code))];
        const told = say("told", at + 1, moments.length, more.filter(each => each).join(""));
        return [told, since, at > 0 && list ? seen(say("sinceThen", list)) : ""].filter(each => each).join(" ");
    }

    draw() {
        const {moments} = this.film, moment = moments[this.at], {WORDS, seen, make} = Player;
        this.slider.value = this.at;
        this.count.textContent = Player.say("count", this.at + 1, moments.length);
        this.slider.setAttribute("aria-valuetext", this.parts.told.textContent = this.tell(this.at));
        this.back.disabled = this.at === 0;
        this.next.disabled = this.at === moments.length - 1;
        this.isNew = new Set(this.at === 0 ? [] : moment.changed.map(([name]) => name));
        this.drawText(moment);
        this.drawValues(moment);
        this.drawLamps(moment);
        this.drawMemory(moment);
        const {output, why, changed, calls} = this.parts;
        output.textContent = moment.printed < 0 ? WORDS.noOutput : seen(this.film.output.slice(0, moment.printed));
        output.scrollTop = output.scrollHeight;
        why.replaceChildren(...(moment.why.length > 0 ? moment.why : [WORDS.none]).map(each => make("li", {}, seen(each))));
        changed.textContent = moment.changed.map(([name, was, is]) => seen(`${name} ${was}\u2192${is}`)).join(", ") || WORDS.none;
        calls.textContent = moment.calls.map(seen).join(" \u2190 ") || WORDS.none;
    }

    /** The program, its lines around the current one. */
    drawText({text: number, line}) {
        const {WORDS, AROUND, make, seen} = Player, {text: part} = this.parts;
        if (number < 0) {
            this.drawnText = -1;
            part.replaceChildren(make("div", {}, WORDS.noText));
            return;
        }
        const from = Math.max(1, line - AROUND), into = line - this.drawnFrom;
        const isAmid = into >= AROUND / 2 && into < AROUND * 1.5 || this.drawnFrom === 1 && into < AROUND;
        if (this.drawnText !== number || line > 0 && !isAmid) {
            const lines = this.film.texts[number].split("\n").slice(from - 1, from + 2 * AROUND);
            part.replaceChildren(...lines.map((each, at) => this.lineOf(from + at, each)));
            Object.assign(this, {drawnText: number, drawnFrom: from});
        }
        this.markLine(line);
    }

    lineOf(at, text) {
        const {make, seen} = Player, [, code, comment] = /^((?:[^;']|'[^']*'?)*)(.*)$/s.exec(text);
        const number = make("i", {"aria-hidden": "true"}, String(at));
        return make("div", {"data-line": at}, number, seen(code), make("span", {className: "comment"}, seen(comment)));
    }

    /** Marks the current line, and scrolls the program so that it is seen. */
    markLine(line) {
        const {text: part} = this.parts;
        const before = part.querySelector(".now"), now = part.querySelector(`[data-line="${line}"]`);
        if (before) before.className = "";
        if (before) before.removeAttribute("aria-current");
        if (!now) return;
        now.className = "now";
        now.setAttribute("aria-current", "true");
        const {offsetTop: top, offsetHeight: height} = now;
        const isSeen = top >= part.scrollTop + height && top + 2 * height <= part.scrollTop + part.clientHeight;
        if (!isSeen) part.scrollTop = top - part.clientHeight / 3;
    }

    drawValues({registers, flags}) {
        const {REGISTERS, FLAGS, make, hex, seen} = Player;
        const item = (name, value) => {
            const members = this.isNew.has(name) ? {className: "new", "aria-label": Player.say("changedValue", value)} : {};
            return make("div", {}, make("dt", {}, name), make("dd", {"data-name": name, ...members}, value));
        };
        const numbers = REGISTERS.map((name, at) => item(name, hex(registers[at], name.length > 1 ? 4 : 2)));
        this.parts.values.replaceChildren(make("dl", {}, ...numbers),
            make("dl", {className: "flags"}, ...FLAGS.map((name, at) => item(name, seen(flags[at])))));
    }

    drawLamps({lamps, switches}) {
        const {make, hex, say} = Player, bits = [7, 6, 5, 4, 3, 2, 1, 0];
        const shown = bits.map(bit => make("span", {className: lamps >> bit & 1 ? "lamp on" : "lamp"}));
        const said = say("lamp", `${lamps.toString(2).padStart(8, "0")}B`);
        const row = make("span", {className: "lamps", role: "img", "aria-label": said}, ...shown);
        this.parts.lamps.replaceChildren(row, say("switches", `${hex(lamps)}H`, `${hex(switches)}H`));
    }

    drawMemory({memory}) {
        const {make, hex} = Player, rows = [];
        for (const [start, digits] of memory) {
            for (let at = 0; at < digits.length / 2; at += 8) {
                const cell = (_, count) => {
                    const name = hex(start + at + count & 65535, 4), value = digits.slice(2 * (at + count), 2 * (at + count) + 2);
                    return make("td", this.isNew.has(name) ? {className: "new", "data-name": name} : {"data-name": name}, value);
                };
                const count = Math.min(8, digits.length / 2 - at);
                const head = make("th", {scope: "row"}, hex(start + at & 65535, 4));
                rows.push(make("tr", {}, head, ...Array.from({length: count}, cell)));
            }
        }
        this.parts.memory.replaceChildren(make("table", {}, make("tbody", {}, ...rows)));
    }

    // ---- a film's file

    /** Plays the film that a page has in it, or says why it can't. */
    static begin() {
        const {make} = Player, sheet = new CSSStyleSheet(), host = make("main");
        sheet.replaceSync("body { margin: 1em auto; max-width: 72em; padding: 0 .7em; font: 14px/1.4 system-ui, sans-serif; }"
            + "h1 { font-size: 17px; margin: 0 0 .6em; overflow-wrap: anywhere; }");
        document.adoptedStyleSheets = [sheet];
        let film = null;
        try {
            film = JSON.parse(document.getElementById("film").textContent);
        } catch {
            // the sentence below says it
        }
        const fault = Player.faultOf(film);
        const title = fault ? Player.say("noFilm", fault) : Player.seen(film.title);
        document.body.prepend(make("h1", fault ? {role: "alert"} : {}, title), host);
        if (fault) return;
        const player = new Player(host, film);
        document.onkeydown = event => { if (!host.contains(event.target)) player.onKey(event); };
    }
}
