// The plugins that a page starts. They share `lab`: the parts, the page's modules, and later the page and the kernel's files.

/** The plugins for {parts, modules, wanted, version}. */
export function make(lab) {
    const {notebook, codemirror, completer, apputils, mainmenu} = lab.modules;
    lab.faults = lab.parts.faults.make(lab);
    return [{
        id: "lab80:notebooks", autoStart: true,
        // Notebook 7 has some pages without notebooks
        optional: [codemirror.IEditorLanguageRegistry, notebook.INotebookTracker, completer.ICompletionProviderManager,
            apputils.ICommandPalette, mainmenu.IMainMenu],
        activate(app, languages, tracker, completions, palette, menu) {
            if (!languages || !tracker) return;
            Object.assign(lab, {app, tracker, files: null, t: english});
            lab.parts.looks.add();
            lab.parts.keys.listen(lab);
            addLanguage(lab, languages);
            const speaks = lab.parts.files.loadLanguage(lab);
            speaks.then(() => addToNotebooks(lab));
            addCommands(lab, palette, menu);
            speaks.then(() => app.commands.notifyCommandChanged());
            if (completions) addCompletions(lab, completions);
        },
    }];
}

/** A text in English, as it is before the page's language is loaded. */
const english = (text, values = []) => text.replace(/\{(\d)\}/g, (_, at) => values[at]);

/** Adopts the notebooks that are open, and those that will be. */
function addToNotebooks(lab) {
    const adopt = panel => {
        lab.parts.panel.addButton(lab, panel);
        lab.parts.notebooks.follow(lab, panel);
    };
    lab.tracker.forEach(adopt);
    lab.tracker.widgetAdded.connect((_, panel) => adopt(panel));
}

// The name that the kernel gives its language, and a type of its own, so that texts of other assemblers stay as they are.
function addLanguage(lab, languages) {
    languages.addLanguage({
        name: "i8080", displayName: "Intel 8080", mime: "text/x-i8080", extensions: [],
        async load() {
            lab.files = await lab.parts.files.load(lab);
            return lab.parts.cells.languageOf(lab, lab.files);
        },
    });
}

function addCompletions(lab, manager) {
    manager.registerProvider(lab.parts.completion.providerOf(lab));
    // by then the page's own sources are there
    lab.app.restored.then(() => lab.parts.completion.passOver(manager));
}

function addCommands(lab, palette, menu) {
    const {app, tracker, parts} = lab, isVisible = () => parts.panel.isOn(lab, tracker.currentWidget);
    const commands = {
        "lab80:open-panel": [() => lab.t("8080 Panel"), () => lab.t("Opens the front panel of this notebook's board"),
            () => parts.panel.open(lab, tracker.currentWidget)],
        "lab80:instructions": [() => lab.t("8080 Instructions"), () => lab.t("Shows or hides the card of all instructions"),
            () => parts.card.toggle(lab)],
    };
    for (const [id, [label, caption, execute]] of Object.entries(commands)) {
        app.commands.addCommand(id, {label, caption, isVisible, isEnabled: isVisible, execute});
        if (palette) palette.addItem({command: id, category: "Notebook Operations"});
    }
    if (menu) menu.helpMenu.addGroup(Object.keys(commands).map(command => ({command})), 15);
}
