// What a notebook with this kernel shows of its cells: faults in words, and which were only loaded.

/** Follows a notebook's kernel, whichever that is. */
export function follow(lab, panel) {
    const context = panel.sessionContext, {isOurs, load, tell} = lab.parts.files;
    let heard = null;
    const adopt = async () => {
        const kernel = context.session && context.session.kernel;
        if (!kernel || kernel === heard || !isOurs(kernel.name)) return;
        heard = kernel;
        const files = await load(lab).catch(() => null);
        if (files) listen(lab, files, panel, kernel);
    };
    context.kernelChanged.connect(adopt);
    context.statusChanged.connect((_, status) => {
        if (status === "autorestarting" && lab.parts.panel.isOn(lab, panel)) tell(lab, anew(lab), ANEW_STAYS);
    });
    panel.node.addEventListener("click", event => goToFault(lab, panel, event.target));
    adopt();
}

// What is said of a kernel that nobody has asked to start anew, for so long that it is still there after the page's dialog.
const ANEW_STAYS = 60000;
const anew = ({t}) => t("the kernel was started anew: its journal was full, or it was ended. "
    + "The panel can restore the board, if it was open");

/** Listens on the notebook's own connection. */
function listen(lab, files, panel, kernel) {
    lab.parts.help.answerOn(kernel, lab, files);
    // the cells that were sent and have no reply yet, by their requests
    const sent = new Map();
    kernel.anyMessage.connect((_, {msg, direction}) => {
        if (panel.isDisposed) return;
        const {msg_type: type, msg_id: id} = msg.header, request = (msg.parent_header || {}).msg_id;
        if (direction === "send" && type === "execute_request") noteSent(lab, panel, sent, id, msg);
        else if (type === "execute_reply" && sent.has(request)) noteReply(lab, files, panel, take(sent, request), msg.content);
    });
}

function take(map, key) {
    const found = map.get(key);
    map.delete(key);
    return found;
}

function noteSent(lab, panel, sent, id, {content, metadata}) {
    const {cellId} = metadata || {};
    if (!cellId) return;
    sent.set(id, {cellId, text: content.code});
    const view = viewOf(cellWith(panel, cellId));
    if (view) lab.faults.hide(view);
}

/** Shows a fault, or that a cell was only loaded, unless its text has changed. */
async function noteReply(lab, {errors}, panel, {cellId, text}, {status, ename, evalue}) {
    const cell = cellWith(panel, cellId);
    if (!cell) return;
    await cell.ready;
    const view = viewOf(cell);
    if (!view || view.state.doc.toString() !== text) return;
    const fault = status === "error" && ename === "AssemblyError" ? errors.explainError(evalue, text) : null;
    if (fault) lab.faults.showFault(view, fault);
    else if (status === "ok" && errors.isOnlyLoaded(text)) lab.faults.showNote(view, lab.t(errors.ONLY_LOADED));
}

const cellWith = (panel, id) => panel.content.widgets.find(({model}) => model && model.id === id);

/** CodeMirror's view of a cell, or null if the page hasn't made one yet. */
const viewOf = cell => cell && cell.editor && cell.editor.editor || null;

// The outputs that are errors.
const ERROR = ".jp-OutputArea-output:is([data-mime-type$='.stderr'], [data-mime-type$='.error'])";

/** A click on an error goes to its place in the cell. */
function goToFault(lab, panel, target) {
    const output = target instanceof Element && target.closest(ERROR);
    const at = output ? panel.content.widgets.findIndex(({node}) => node.contains(output)) : -1;
    const view = at >= 0 ? viewOf(panel.content.widgets[at]) : null, place = view && lab.faults.placeOf(view);
    if (!place || place.line > view.state.doc.lines) return;
    panel.content.activeCellIndex = at;
    panel.content.mode = "edit";
    const line = view.state.doc.line(place.line);
    view.dispatch({selection: {anchor: Math.min(line.from + place.from - 1, line.to)}, scrollIntoView: true});
    view.focus();
}
