// How it looks, in light and dark, with the colours of the front panel.

const LOOKS = `
    body {
        --lab80-label: #1f5fae; --lab80-keyword: #2c6b3f; --lab80-directive: #7a3e9d; --lab80-register: #a3400c;
        --lab80-number: #2c7a42; --lab80-string: #a3400c; --lab80-comment: #636a76; --lab80-bad: #b3261e;
        --lab80-marked: #f9d6d2; --lab80-faulty: #fdf0ef; --lab80-note: #6b5300;
    }
    body[data-jp-theme-light="false"] {
        --lab80-label: #8fbcf5; --lab80-keyword: #8fd09d; --lab80-directive: #cfa3e8; --lab80-register: #efb27f;
        --lab80-number: #8fd09d; --lab80-string: #efb27f; --lab80-comment: #8a93a2; --lab80-bad: #ff8a80;
        --lab80-marked: #6b2621; --lab80-faulty: #3a2322; --lab80-note: #e5c976;
    }
    .cm-editor span.lab80-label { color: var(--lab80-label); font-weight: 600; }
    .cm-editor span:is(.lab80-transfer, .lab80-arithmetic, .lab80-logical, .lab80-branch, .lab80-stack) {
        color: var(--lab80-keyword); font-weight: 600;
    }
    .cm-editor span.lab80-directive { color: var(--lab80-directive); font-weight: 600; }
    .cm-editor span.lab80-register { color: var(--lab80-register); }
    .cm-editor span:is(.lab80-name, .lab80-operator) { color: inherit; font-weight: inherit; }
    .cm-editor span.lab80-number { color: var(--lab80-number); }
    .cm-editor span.lab80-string { color: var(--lab80-string); }
    .cm-editor span.lab80-comment { color: var(--lab80-comment); font-style: italic; }
    .cm-editor span.lab80-fault { color: var(--lab80-bad); text-decoration: underline wavy; }
    .lab80-marked { background: var(--lab80-marked); text-decoration: underline wavy var(--lab80-bad); }
    .lab80-faulty, .lab80-beneath { background: var(--lab80-faulty); }
    .lab80-beneath { padding: 0 6px; white-space: normal; }
    .lab80-why { color: var(--lab80-bad); font-family: var(--jp-ui-font-family); }
    .lab80-why code { color: inherit; background: color-mix(in srgb, var(--lab80-bad) 12%, transparent); padding: 0 .25em; }
    .lab80-note { padding: .3em 6px 0; color: var(--lab80-note); font-family: var(--jp-ui-font-family); }
    .lab80-card { padding: .5em .7em; max-width: 28em; font-family: var(--jp-ui-font-family); color: var(--jp-ui-font-color1); }
    .lab80-card strong { font-family: var(--jp-code-font-family); }
    .lab80-card p { margin: .3em 0 0; }
    .lab80-card .lab80-faint { color: var(--jp-ui-font-color2); }
    .lab80-instructions {
        overflow: auto; min-width: 220px; background: var(--jp-layout-color1); color: var(--jp-ui-font-color1);
    }
    .lab80-instructions h2 { font-size: 1.1em; margin: .9em .6em .2em; }
    .lab80-instructions .lab80-card { max-width: none; padding: .35em .7em; }
`;

/** Adds the looks to the page. */
export function add() {
    const style = document.createElement("style");
    style.textContent = LOOKS;
    document.head.append(style);
}
