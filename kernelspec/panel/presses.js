// What the keypad, the arrows and the clock send to the board: buttons that are pressed and characters that are typed. One request
// is under way at a time, and few wait, so that quick keys flood nothing.
import {mayRun} from "./board.js";
import {attempt} from "./commands.js";
import {passed, turns} from "./dom.js";
import {t} from "./language.js";
import {Refusal, debug} from "./line.js";
import {noteDevices, variables} from "./look.js";

// Milliseconds between two tries while another press is latched.
const TRY_AFTER = 60;
const MOST_TRIES = 5, MOST_WAITING = 2, MOST_CHARACTERS = 32;

const inTurn = turns();
let waiting = 0;

/** Does some work after what is under way, unless too much waits already. */
function enter(work) {
    if (waiting >= MOST_WAITING) return;
    ++waiting;
    inTurn(() => {
        --waiting;
        return work();
    });
}

/** Shows lamps, switches and the latched button while no program runs. While one runs the page follows them. */
const showDevices = async () => mayRun() || noteDevices(await variables(3));

/** Asks for an interrupt. One that is latched has a moment to be accepted first. Returns whether the board has taken it. */
export async function ask(vector, tries = MOST_TRIES) {
    for (;;) {
        try {
            await debug("boardPress", {vector});
            return true;
        } catch (fault) {
            if (!(fault instanceof Refusal) || fault.message !== "Latched") throw fault;
        }
        if (--tries <= 0) return false;
        await passed(TRY_AFTER);
    }
}

/** Presses a button. `say` is told if the program takes none. */
export const pressButton = (vector, say) => enter(() => attempt(`RST ${vector}`, async () => {
    const isTaken = await ask(vector);
    say(isTaken ? "" : t("The program hasn\u2019t taken the button that was pressed before"));
    await showDevices();
}));

let typed = "";

/** Types a character. Those that come while a request is under way are sent together. */
export function typeCharacter(character) {
    const isFirst = typed === "";
    if (typed.length < MOST_CHARACTERS) typed += character;
    if (!isFirst) return;
    inTurn(() => attempt(t("Type"), async () => {
        const text = typed;
        typed = "";
        await debug("boardType", {text});
        await showDevices();
    }));
}
