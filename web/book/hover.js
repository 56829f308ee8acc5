// Cards: an instruction's description, while the mouse is on its word.
import {card} from "../cards.js";
import {byId, make} from "../panel/dom.js";

let shown = null;

function hide() {
    byId("card").hidden = true;
    shown = null;
}

function show(word) {
    const {form, does, flags, bytes, states} = card(word.dataset.card), faint = text => make("p", {className: "faint"}, text);
    byId("card").replaceChildren(make("strong", {}, form), make("p", {}, does), faint(`Flags: ${flags}`),
        faint(`${bytes === 1 ? "1 byte" : `${bytes} bytes`}; Intel's states: ${states}`));
    byId("card").hidden = false;
    shown = word;
    place(word.getBoundingClientRect());
}

/** Places the card below the word, or above it if there is no room. */
function place(at) {
    const card = byId("card"), {width, height} = card.getBoundingClientRect();
    const top = at.bottom + height + 8 < innerHeight ? at.bottom + 4 : Math.max(4, at.top - height - 4);
    card.style.top = `${top}px`;
    card.style.left = `${Math.max(4, Math.min(at.left, document.documentElement.clientWidth - width - 8))}px`;
}

/** The words of a cell lie behind its field. */
function onMove({target, clientX, clientY}) {
    const field = target instanceof Element && target.closest(".field");
    const word = field && document.elementsFromPoint(clientX, clientY).find(each => each.dataset && each.dataset.card);
    if (!word) hide();
    else if (word !== shown) show(word);
}

export function listenToCards() {
    document.addEventListener("mousemove", onMove);
    for (const event of ["scroll", "input", "mouseleave"]) document.addEventListener(event, hide, true);
    document.addEventListener("keydown", event => event.key === "Escape" && hide());
}
