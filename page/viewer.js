"use strict";
// A picture of a tree with what one can do to it: close and open subtrees, zoom, choose the direction, and save it.
// The picture is one stop of the tab key; arrow keys go from node to node, as in a tree of folders.

const ZOOM = 1.25, LARGEST_FIT = 1.4, ZOOMS = [0.1, 5];
// A picture that would have to be smaller than LEAST_FIT is shown at READABLE, and scrolled.
const LEAST_FIT = 0.55, READABLE = 0.85;
// A tree of more items is always drawn from left to right, if it is not asked for otherwise.
const MOST_DOWN = 60;

class TreeViewer {
    // `numbers` are as PictureWords has them; `save` takes the bytes of an SVG file.
    constructor(tree, { numbers = null, save = null } = {}) {
        Object.assign(this, { tree, numbers, save, names: numbers === null, direction: "", zoom: 0, marks: [] });
        this.folding = new Folding(tree);
        this.frame = el("div", { class: "frame", wheel: event => this.onWheel(event) });
        this.note = el("p", { class: "note", role: "status" });
        this.element = el("div", { class: "viewer" }, this.tools(), this.note, this.frame);
        new ResizeObserver(() => this.onResize()).observe(this.frame);
    }

    tools() {
        const sign = (words, label, click) => button(words, click, { "aria-label": label, title: label });
        const fold = change => () => {
            change();
            this.draw();
        };
        return toolbar("Picture", sign("−", "Smaller", () => this.scale(this.zoom / ZOOM)),
            sign("Fit", "As large as fits", () => this.fit()), sign("+", "Larger", () => this.scale(this.zoom * ZOOM)),
            this.directions(), this.namesBox(), button("Open all", fold(() => this.folding.openAll())),
            button("Close all", fold(() => this.folding.closeAll())),
            this.save ? button("Save SVG", () => this.save(svgFile(this.svg, this.tree))) : null);
    }

    directions() {
        const choose = () => {
            this.direction = menu.value;
            this.draw();
        };
        const menu = el("select", { "aria-label": "Direction of the picture", change: choose },
            el("option", { value: "" }, "Direction: as it fits"),
            el("option", { value: "across" }, "From left to right"), el("option", { value: "down" }, "Down"));
        return menu;
    }

    namesBox() {
        const change = () => {
            this.names = box.checked;
            this.draw();
        };
        const box = el("input", { type: "checkbox", checked: this.names, change });
        return el("label", {}, box, " Names");
    }

    // Lays the tree out in the direction that is chosen, or in the one that is shown larger and clearly.
    layOut() {
        const { tree, direction } = this, described = () => {
            const items = this.folding.items(), words = new PictureWords(tree, this);
            for (const item of items) words.describe(item);
            return items;
        };
        if (direction === "down") return layOut(tree, described(), true);
        const items = described();
        if (isRowOfMoves(items)) return layOutRow(tree, items);
        const across = layOut(tree, items, false);
        if (direction === "across" || items.length > MOST_DOWN) return across;
        const down = layOut(tree, described(), true), isClear = down.lanes <= 2 && !down.isBent && clashes(down) === 0;
        return isClear && this.room(down) >= Math.min(1, this.room(across)) ? down : across;
    }

    // How many times as large as a drawing the room for it is. A drawing may be somewhat higher than the room.
    room({ width, height }) {
        const most = Math.max(window.innerHeight * 0.62, 260);
        return Math.min((this.frame.clientWidth - 4) / width, Math.max(most / (height + LEGEND), 0.8));
    }

    // Draws the tree. `focused` is the node that gets the focus, if one does.
    draw(focused = null) {
        const { tree, frame } = this, { scrollLeft, scrollTop } = frame, drawing = this.layOut();
        this.items = drawing.items;
        this.svg = drawTree(tree, drawing);
        this.svg.addEventListener("click", event => this.onClick(event));
        this.svg.addEventListener("keydown", event => this.onKey(event));
        frame.replaceChildren(this.svg);
        this.mark();
        this.fit();
        Object.assign(frame, { scrollLeft, scrollTop });
        this.select(focused ?? this.selected ?? 0, focused !== null);
        const seen = this.items.filter(it => it.more === 0).length, all = counted(tree.count, "node", "nodes");
        const words = `${all}, of which ${grouped(seen)} are shown: a triangle opens what is below it.`;
        this.say(seen === tree.count ? "" : words);
    }

    say(words) {
        this.note.textContent = words;
    }

    fit() {
        const { width, height } = this.svg.viewBox.baseVal, room = this.room({ width, height: height - LEGEND });
        this.scale(room < LEAST_FIT ? READABLE : Math.min(LARGEST_FIT, room));
        this.isFit = true;
    }

    scale(to) {
        const { width, height } = this.svg.viewBox.baseVal;
        this.isFit = false;
        this.zoom = Math.min(ZOOMS[1], Math.max(ZOOMS[0], to));
        setAll(this.svg, { width: Math.round(width * this.zoom), height: Math.round(height * this.zoom) });
    }

    onResize() {
        if (!this.svg || !this.isFit || this.frame.clientWidth === this.width) return;
        this.width = this.frame.clientWidth;
        this.fit();
    }

    onWheel(event) {
        if (!event.ctrlKey) return;
        event.preventDefault();
        this.scale(this.zoom * (event.deltaY < 0 ? 1.1 : 1 / 1.1));
    }

    // Makes one node the stop of the tab key, brings it into sight, and perhaps gives it the focus.
    select(node, takesFocus) {
        const all = [...this.svg.querySelectorAll(".node")];
        const at = all.find(it => it.dataset.node === `${node}`) ?? all[0];
        for (const it of all) setAll(it, { tabindex: it === at ? 0 : -1, "aria-selected": `${it === at}` });
        this.selected = Number(at.dataset.node);
        if (takesFocus) at.focus({ preventScroll: true });
        this.bring(at);
    }

    // Scrolls the frame, and not the page, until a node is in sight.
    bring(group) {
        const { frame } = this, room = frame.getBoundingClientRect(), at = group.getBoundingClientRect();
        if (at.left < room.left || at.right > room.right)
            frame.scrollLeft += at.left + at.width / 2 - room.left - room.width / 2;
        if (at.top < room.top || at.bottom > room.bottom)
            frame.scrollTop += at.top + at.height / 2 - room.top - room.height / 2;
    }

    itemOf(node) {
        return this.items.find(it => it.node === Number(node));
    }

    // Closes or opens what is below an item.
    toggle(item) {
        const { folding, zoom, isFit } = this;
        let isDone = true;
        if (item.more > 0) isDone = folding.showMore(item.parent.node);
        else if (item.closed) isDone = folding.open(item.node);
        else if (folding.isInner(item.node)) folding.close(item.node);
        else return;
        this.draw(item.node);
        if (!isFit) this.scale(zoom);
        if (!isDone) this.say(`No more than ${grouped(MOST_ITEMS)} nodes are shown at once: close some first.`);
    }

    onClick(event) {
        const group = event.target.closest(".node");
        if (!group) return;
        const item = this.itemOf(group.dataset.node), isWords = event.target.closest("text") !== null;
        this.select(item.node, true);
        // Words can be chosen without closing what is below.
        if (!isWords || item.closed || item.more > 0) this.toggle(item);
    }

    onKey(event) {
        if (event.ctrlKey || event.altKey || event.metaKey) return;
        const { items } = this, item = this.itemOf(this.selected), at = items.indexOf(item);
        const go = to => to && this.select(to.node, true);
        const does = {
            Enter: () => this.toggle(item),
            " ": () => this.toggle(item),
            ArrowRight: () => item.closed || item.more > 0 ? this.toggle(item) : go(item.children[0]),
            ArrowLeft: () => go(item.parent),
            ArrowDown: () => go(items[at + 1]),
            ArrowUp: () => go(items[at - 1]),
            Home: () => go(items[0]),
            End: () => go(items.at(-1)),
            "+": () => this.scale(this.zoom * ZOOM),
            "-": () => this.scale(this.zoom / ZOOM),
        }[event.key];
        if (!does) return;
        event.preventDefault();
        does();
    }

    // Marks the nodes of a set, those with an outcome, or one node: [{ set }], [{ outcome }] or [{ node }].
    setMarks(marks) {
        this.marks = marks;
        this.mark();
    }

    mark() {
        const isMarked = ({ dataset }) => this.marks.some(mark =>
            Object.entries(mark).every(([name, value]) => dataset[name] === `${value}`));
        for (const it of this.svg.querySelectorAll(".node, .dash")) it.classList.toggle("marked", isMarked(it));
    }

    // Shows a node, if not too many others must be shown for it, and brings it into sight.
    reveal(node) {
        const item = this.itemOf(node);
        if (!item || item.more > 0) {
            if (!this.folding.reveal(node)) return this.say(`Node ${grouped(node + 1)} is too deep to be shown.`);
            this.draw();
        }
        this.bring(this.svg.querySelector(`[data-node="${node}"]`));
    }
}
