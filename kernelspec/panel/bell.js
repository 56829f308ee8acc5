// A bell, which rings for each character 07 that a program prints. It is seen to ring too, and can be silent.
import {make, readSetting, saveSetting} from "./dom.js";
import {t} from "./language.js";
import {drawing} from "./segments.js";
import {on} from "./signals.js";

// Milliseconds in which further characters ring no other time, and for which a ring is seen.
const RINGS_FOR = 250, IS_SEEN_FOR = 700;
const PITCH = 880, LOUDNESS = 0.15;

const shape = () => [
    drawing("path", {d: "M12 2v2c-4 0-6 3-6 7v4l-2 3h16l-2-3v-4c0-4-2-7-6-7z"}), drawing("circle", {cx: 12, cy: 20, r: 2}),
];

let sound = null;

/** Makes the sound. Browsers make none before somebody has used the page. */
function play() {
    if (typeof AudioContext === "undefined") return;
    sound = sound || new AudioContext();
    if (sound.state === "suspended") sound.resume().catch(() => {});
    const tone = sound.createOscillator(), volume = sound.createGain(), end = sound.currentTime + RINGS_FOR / 1000;
    tone.frequency.value = PITCH;
    volume.gain.setValueAtTime(LOUDNESS, sound.currentTime);
    volume.gain.exponentialRampToValueAtTime(0.001, end);
    tone.connect(volume).connect(sound.destination);
    tone.start();
    tone.stop(end);
}

const listeners = new Set();

on("message", ({header, content}) => {
    if (listeners.size === 0 || header.msg_type !== "stream" || typeof content.text !== "string") return;
    const count = content.text.split("\x07").length - 1;
    if (count > 0) for (const each of listeners) each(count);
});

export function bell() {
    const picture = drawing("svg", {viewBox: "0 0 24 24", class: "bell", "aria-hidden": "true"}, ...shape());
    const said = make("p", {role: "status"}, t("It hasn\u2019t rung")), isLoud = readSetting("silent bell") !== true;
    const box = make("input", {type: "checkbox", checked: isLoud});
    const state = {count: 0, last: -Infinity, timer: 0};
    box.onchange = () => saveSetting("silent bell", box.checked ? null : true);
    const ring = count => {
        const now = performance.now();
        state.count += count;
        clearTimeout(state.timer);
        state.timer = setTimeout(quiet, IS_SEEN_FOR);
        picture.classList.add("rings");
        if (now - state.last < RINGS_FOR) return;
        state.last = now;
        if (box.checked && !document.hidden) play();
    };
    // what is said comes once for several rings
    const quiet = () => {
        picture.classList.remove("rings");
        said.textContent = state.count === 1 ? t("It has rung once") : t("It has rung {0} times", [state.count]);
    };
    listeners.add(ring);
    const close = () => {
        listeners.delete(ring);
        clearTimeout(state.timer);
    };
    return {element: make("div", {className: "bell-device"}, picture, said, make("label", {}, box, t("Sound"))), close};
}
