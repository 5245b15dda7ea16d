"use strict";
// What each tab shows of a file. A view gives an element, and perhaps what is to be done once that is on the page.

// The tabs of a tree and of a table.
const TABS = {
    tree: [
        ["picture", "Picture"], ["form", "Strategic form"], ["reduced", "Reduced form"],
        ["canonical", "Canonical text"], ["compare", "Compare"],
    ],
    table: [["form", "Table"], ["canonical", "Canonical text"], ["compare", "Compare"]],
};
// No more information sets, and no more of their actions, are listed beside a table.
const MOST_KEYS = 60, MOST_KEY_ACTIONS = 600;

const STRATEGIES = "A strategy has the number of an action for each information set of its player, in this order. "
    + "A * stands where the player's own earlier choices rule the set out.";

class Views {
    // `page` has the calls and the files, and takes further ones.
    constructor(page) {
        this.page = page;
    }

    // The title of a game and its comment.
    heading({ title, comment }) {
        const lines = comment.split("\n").map(shown).join("\n"), parts = [];
        if (title !== "") parts.push(el("h3", {}, shown(title)));
        if (comment !== "") parts.push(el("p", { class: "comment" }, lines));
        return parts;
    }

    async picture(file, signal) {
        const tree = await file.tree(this.page.calls, signal);
        const viewer = new TreeViewer(tree, { save: bytes => saveBytes(bytes, `${file.stem}.svg`) });
        return { element: el("div", {}, ...this.heading(tree), viewer.element), attached: () => viewer.draw() };
    }

    form(file, signal) {
        return this.table(file, signal, false);
    }

    reduced(file, signal) {
        return this.table(file, signal, true);
    }

    async table(file, signal, reduced) {
        const { page } = this, isTree = file.kind === "tree";
        const bytes = await file.table(page.calls, signal, reduced), table = new Table(bytes);
        if (isTree) table.tree = await file.tree(page.calls, signal);
        const name = `${file.stem}${isTree ? reduced ? "-reduced" : "-table" : ""}.nfg`;
        const bar = toolbar("Table", button("Save .nfg", () => saveBytes(bytes, name)),
            copyButton("Copy as text", () => decoded(bytes)),
            isTree ? button("Open as a file", () => page.take([new GameFile(name, bytes)])) : null,
            el("span", { class: "note" }, counted(table.profiles, "profile", "profiles")));
        const key = isTree ? this.key(table.tree) : null;
        return { element: el("div", {}, ...this.heading(table), bar, key, new TableViewer(table).element) };
    }

    // What the numbers in the strategies of a tree's table stand for.
    key(tree) {
        const sets = tree.sets.filter(it => it.player > 0);
        const actions = sets.reduce((sum, it) => sum + it.actions.length, 0);
        if (sets.length === 0 || sets.length > MOST_KEYS || actions > MOST_KEY_ACTIONS) return null;
        const lines = sets.map(set => {
            const name = set.name === "" ? `set ${set.number}` : shown(set.name);
            const labels = set.actions.map((it, i) => `${i + 1} ${shown(it.label)}`).join(", ");
            return el("li", { class: colourOf(set.player) }, `${tree.playerName(set.player)}, ${name}: ${labels}`);
        });
        return el("details", {}, el("summary", {}, "What the strategies are"), el("p", {}, STRATEGIES),
            el("ul", { class: "keys" }, ...lines));
    }

    async canonical(file, signal) {
        const { calls } = this.page, bytes = await file.canonical(calls, signal), isLong = bytes.length > MOST_TEXT;
        const hash = await file.hash(calls, signal), plain = await file.hash(calls, signal, false);
        const line = (words, value) =>
            [el("dt", {}, words), el("dd", {}, el("code", {}, value), " ", copyButton("Copy", () => value))];
        const hashes = el("dl", { class: "hashes" }, ...line("SHA-256 of the canonical text", hash),
            ...line("The same without names", plain));
        const ending = file.kind === "tree" ? "efg" : "nfg";
        const bar = toolbar("Canonical text", copyButton("Copy text", () => decoded(bytes)),
            button(`Save .${ending}`, () => saveBytes(bytes, `${file.stem}-canonical.${ending}`)),
            copyButton("Copy link with this game", () => this.link(file)));
        const note = `The first ${grouped(MOST_TEXT)} of ${grouped(bytes.length)} bytes; all are saved and copied.`;
        const text = el("pre", { class: "text", tabindex: 0, role: "region", "aria-label": "Canonical text" },
            decoded(isLong ? bytes.subarray(0, MOST_TEXT) : bytes));
        return { element: el("div", {}, hashes, bar, isLong ? el("p", { class: "note" }, note) : null, text) };
    }

    async link(file) {
        const link = await packedLink(file), most = grouped(MOST_LINK);
        if (link === null) this.page.say(`${file.name} is too long for a link, which may have ${most} letters.`);
        return link;
    }

    // The menu of what a file can be compared with.
    otherMenu(others) {
        const { page } = this, menu = el("select", { id: "other" }, el("option", { value: "" }, "Choose a file"));
        const option = (value, it) => el("option", { value, selected: it === page.other }, it.name);
        const group = (label, options) => options.length > 0 && menu.append(el("optgroup", { label }, ...options));
        group("Open files", others.map((it, i) => option(`file ${i}`, it)));
        group("Examples", gamefile.examples.map(it => option(`example ${it.name}`, it)));
        menu.addEventListener("change", () => {
            const [, kind, which] = menu.value.match(/^(\w+) (.*)$/) ?? [];
            if (kind) page.compareWith(kind === "file" ? others[which] : page.example(which));
        });
        return menu;
    }

    async compare(file, signal) {
        const { page } = this, { other } = page, others = page.files.filter(it => it !== file);
        const label = el("label", { for: "other" }, `Compare ${file.name} with`);
        const element = el("div", {}, el("div", { class: "tools" }, label, this.otherMenu(others)));
        if (!others.includes(other)) return { element };
        await other.judged;
        if (other.state !== "valid") {
            element.append(el("p", { class: "bad" }, this.whyNot(other)));
            return { element };
        }
        const comparison = new Comparison(file, other, page.calls, signal);
        await comparison.judge();
        element.append(comparison.element);
        return { element, attached: () => comparison.attached() };
    }

    whyNot({ name, state, refusal, failure }) {
        if (state === "failed") return `${name}: ${failure.message}.`;
        const { code, start, end, message } = refusal;
        return `${name} is refused: ${code} at ${start}..${end}: ${message}.`;
    }
}
