// Keys for programs: a keypad that types, and arrows.
import {holdSwitch} from "./commands.js";
import {make} from "./dom.js";
import {t} from "./language.js";
import {pressButton, typeCharacter} from "./presses.js";

/** A group of keys, in which those of the keyboard work too. Each key has `text`, `name` and `keys`, the keyboard's names for it.
 *  `down` is called with a key's number, and `up` if it is given. */
function pad(className, keys, down, up = () => {}) {
    const held = new Set();
    const begin = at => {
        if (held.has(at)) return;
        held.add(at);
        buttons[at].classList.add("down");
        down(at);
    };
    const end = at => {
        if (!held.delete(at)) return;
        buttons[at].classList.remove("down");
        up(at);
    };
    const buttons = keys.map(({text, name}, at) => {
        const button = make("button", {type: "button", "aria-label": name, title: name}, text);
        button.onpointerdown = event => event.button === 0 && begin(at);
        button.onpointerup = button.onpointerleave = button.onpointercancel = () => end(at);
        // by Enter, the space bar or a tool that speaks, which press no pointer
        button.onclick = event => { if (event.detail === 0) tap(at); };
        return button;
    });
    const tap = at => { begin(at); end(at); };
    const group = make("div", {className}, ...buttons);
    const keyOf = event => event.ctrlKey || event.altKey || event.metaKey ? -1
        : keys.findIndex(each => each.keys.includes(event.key.length === 1 ? event.key.toUpperCase() : event.key));
    group.onkeydown = event => {
        const at = keyOf(event);
        if (at < 0) return;
        event.preventDefault();
        if (!event.repeat) begin(at);
    };
    group.onkeyup = event => {
        const at = keyOf(event);
        if (at < 0) return;
        event.preventDefault();
        end(at);
    };
    group.addEventListener("focusout", event => {
        if (!group.contains(event.relatedTarget)) for (const at of [...held]) end(at);
    });
    return group;
}

// ---- the keypad

const LAYOUT = [..."123A456B789CE0FD"];

export function keypad() {
    const keys = LAYOUT.map(text => ({text, name: t("Key {0}", [text]), keys: [text]}));
    return {element: pad("keypad", keys, at => typeCharacter(LAYOUT[at]))};
}

// ---- arrows

const ARROWS = [
    {text: "\u25B2", name: t("Up"), keys: ["ArrowUp", "W"]}, {text: "\u25BC", name: t("Down"), keys: ["ArrowDown", "S"]},
    {text: "\u25C0", name: t("Left"), keys: ["ArrowLeft", "A"]}, {text: "\u25B6", name: t("Right"), keys: ["ArrowRight", "D"]},
    {text: "\u25CF", name: t("Middle"), keys: [" "]},
];
const CHARACTERS = [..."WSAD "];

// What each way does with a key that goes down or up, and what is said of it.
const WAYS = {
    buttons: {
        about: t("RST 1 to RST 5: up, down, left, right, middle"), down: (at, say) => pressButton(at + 1, say),
    },
    keys: {about: t("They type W, S, A, D and a blank"), down: at => typeCharacter(CHARACTERS[at])},
    switches: {
        about: t("S0 to S4, held up: up, down, left, right, middle"), down: at => holdSwitch(at, true), up: at => holdSwitch(at, false),
    },
};

export function arrows({way}) {
    const {about, down, up} = WAYS[way], said = make("p", {className: "note", role: "status"});
    const say = text => { if (said.textContent !== text) said.textContent = text; };
    const keys = pad("arrows", ARROWS, at => down(at, say), up);
    const note = make("p", {className: "note"}, t("{0}. Click here to use the arrows and the space bar of the keyboard", [about]));
    return {element: make("div", {}, keys, note, said)};
}
