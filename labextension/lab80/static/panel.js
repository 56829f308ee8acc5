// The button that opens the front panel, in the toolbars of notebooks with this kernel.

/** The kernel of a notebook, or null. */
const kernelOf = panel => panel && panel.sessionContext.session && panel.sessionContext.session.kernel || null;

/** Whether a notebook's kernel is one of this laboratory's. */
export function isOn(lab, panel) {
    const kernel = kernelOf(panel);
    return kernel !== null && lab.parts.files.isOurs(kernel.name);
}

/** Opens the front panel of a notebook's board in a window of its own, one for each board, which stands beside the notebook. */
export function open(lab, panel) {
    const {name, id} = kernelOf(panel), address = lab.parts.files.addressOf(lab, name, "panel.html", {kernel: id, beside: 1});
    window.open(address, `lab80-panel-${id}`, rightHalf());
}

/** A window's place: the right half of the screen. */
function rightHalf() {
    const {availLeft = 0, availTop = 0, availWidth, availHeight} = screen, width = Math.floor(availWidth / 2);
    return `left=${availLeft + availWidth - width},top=${availTop},width=${width},height=${availHeight}`;
}

/** Adds the button to a notebook, and shows it as long as the kernel is one of this laboratory's. */
export function addButton(lab, panel) {
    const button = new lab.modules.apputils.ToolbarButton({
        label: lab.t("8080 panel"), tooltip: lab.t("Open the front panel and debugger of this board"), onClick: () => open(lab, panel),
    });
    button.addClass("lab80-panel");
    const show = () => button.setHidden(!isOn(lab, panel));
    panel.sessionContext.kernelChanged.connect(show);
    show();
    const {toolbar} = panel;
    if (!toolbar.insertAfter("cellType", "lab80-panel", button)) toolbar.insertItem(10, "lab80-panel", button);
}
