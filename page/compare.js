"use strict";
// Compares two files: whether they are the same game, the same but for names, or not; which information sets and
// outcomes correspond, and where two games first differ. Only the proved calls judge; what is shown beside that is read
// from canonical texts.

// No more sets, and no more outcomes, are listed.
const MOST_PAIRS = 300;
// So many letters of a line are shown before and after what differs, and of that itself.
const AROUND = 60, MOST_DIFFERENT = 200;

// The numbers that sets and outcomes of a canonical text have in the file.
async function numbersIn(file, calls, signal) {
    const canonical = await file.canonical(calls, signal), found = new Map();
    for (const { player, from, to } of await calls.run(signal, "renumbering", canonical, file.bytes)) {
        if (!found.has(player)) found.set(player, []);
        found.get(player)[from] = to;
    }
    return { set: it => found.get(it.player)[it.number], outcome: it => found.get(null)[it.number] };
}

// Where two lists first differ: at the end of the shorter one if it begins the other.
function firstDifference(a, b) {
    const length = Math.min(a.length, b.length);
    let at = 0;
    while (at < length && a[at] === b[at]) at++;
    return at;
}

// The place of the last number of an ascending list that is not above a given one; -1 if all are.
function lastUpTo(list, count, number) {
    let low = -1, high = count - 1;
    while (low < high) {
        const middle = (low + high + 1) >> 1;
        if (list[middle] <= number) low = middle;
        else high = middle - 1;
    }
    return low;
}

const quoted = labels => labels.map(it => `“${shown(it)}”`).join(", ");
const areEqual = (a, b) => JSON.stringify(a) === JSON.stringify(b);

class Comparison {
    constructor(a, b, calls, signal) {
        Object.assign(this, { files: [a, b], calls, signal, viewers: [] });
        this.element = el("div", { class: "comparison" });
    }

    async judge() {
        const [a, b] = this.files, { calls, signal } = this;
        const isSame = await calls.run(signal, "same", a.bytes, b.bytes, { names: true });
        this.isAlike = isSame || await calls.run(signal, "same", a.bytes, b.bytes, { names: false });
        const [mark, words] = isSame ? ["same", "are the same game"]
            : this.isAlike ? ["but-names", "are the same game but for names"] : ["different", "are not the same game"];
        this.element.append(el("h3", { class: `answer ${mark}` }, `${a.name} and ${b.name} ${words}.`));
        if (a.kind !== b.kind) {
            const [tree, table] = a.kind === "tree" ? [a, b] : [b, a];
            this.element.append(el("p", {}, `${tree.name} is a tree, and ${table.name} is a table.`));
        } else if (a.kind === "tree") await this.showTrees();
        else await this.showTables();
    }

    // The titles and comments, where they are not the same.
    otherNames([a, b]) {
        const words = ["title", "comment"].filter(it => a[it] !== b[it]).map(it => {
            const both = [a[it], b[it]].map(label => quoted([label.slice(0, MOST_DIFFERENT)])).join(" and ");
            return `Their ${it}s are ${both}.`;
        });
        return words.length > 0 ? el("p", {}, words.join(" ")) : "";
    }

    // The answer of `ask` for each of the two files.
    async both(ask) {
        return [await ask(this.files[0]), await ask(this.files[1])];
    }

    besides(show) {
        const parts = this.files.map((file, i) =>
            el("section", { "aria-label": file.name }, el("h4", {}, file.name), show(i)));
        return el("div", { class: "side-by-side" }, ...parts);
    }

    async showTrees() {
        const { calls, signal } = this;
        const trees = await this.both(it => it.tree(calls, signal));
        const numbers = await this.both(it => numbersIn(it, calls, signal));
        this.viewers = trees.map((tree, i) => new TreeViewer(tree, { numbers: numbers[i] }));
        if (this.isAlike) this.element.append(this.otherNames(trees), this.pairs(trees, numbers));
        else this.element.append(await this.difference(trees));
        this.element.append(this.besides(i => this.viewers[i].element));
    }

    // Which sets and outcomes correspond. One can be chosen, and is then marked in both pictures.
    pairs([a, b], numbers) {
        const body = el("tbody"), take = list => list.slice(0, MOST_PAIRS);
        take(a.sets).forEach((set, i) => {
            const what = `Set of ${a.playerName(set.player)}`;
            const both = [set, b.sets[i]];
            body.append(this.pair(what, { set: i }, both, numbers.map((it, n) => it.set(both[n]))));
        });
        take(a.outcomes).forEach((outcome, i) => {
            const both = [outcome, b.outcomes[i]];
            body.append(this.pair("Outcome", { outcome: i }, both, numbers.map((it, n) => it.outcome(both[n]))));
        });
        const left = a.sets.length + a.outcomes.length - body.childElementCount;
        if (left > 0) body.append(el("tr", {}, el("td", { colspan: 5 }, `and ${grouped(left)} more`)));
        if (body.childElementCount === 0) return el("p", {}, "They have no information sets and no outcomes.");
        const head = (words, colspan = 1) => el("th", { scope: "col", colspan }, words);
        const heads = ["What corresponds", ...this.files.map(it => `Number in ${it.name}`)].map(it => head(it));
        const table = el("table", {}, el("thead", {}, el("tr", {}, ...heads, head("Name", 2))), body);
        const region = { class: "scroll pairs", tabindex: 0, role: "region", "aria-label": "What corresponds" };
        const summary = "Which information sets and outcomes correspond: choose one to mark it in both pictures";
        return el("details", { open: true }, el("summary", {}, summary), el("div", region, table));
    }

    pair(what, mark, both, numbers) {
        const choose = button(what, () => this.choose(choose, mark), { "aria-pressed": "false" });
        const names = both.map(it => shown(it.name));
        const cells = names[0] === names[1] ? [el("td", { colspan: 2 }, names[0])] : names.map(it => el("td", {}, it));
        return el("tr", {}, el("th", { scope: "row" }, choose), ...numbers.map(it => el("td", {}, `${it}`)), ...cells);
    }

    choose(chosen, mark) {
        const isOn = chosen.getAttribute("aria-pressed") === "false";
        for (const it of this.element.querySelectorAll("[aria-pressed]")) it.setAttribute("aria-pressed", "false");
        chosen.setAttribute("aria-pressed", `${isOn}`);
        for (const viewer of this.viewers) {
            viewer.setMarks(isOn ? [mark] : []);
            const { set, outcome } = viewer.tree;
            if (isOn) viewer.reveal("set" in mark ? set.indexOf(mark.set) : outcome.indexOf(mark.outcome));
        }
    }

    // Where two trees first differ, names set aside.
    async difference(trees) {
        const plain = await this.both(it => it.canonical(this.calls, this.signal, false));
        const at = firstDifference(...plain), bare = [await readTree(plain[0]), await readTree(plain[1])];
        const nodes = bare.map(it => lastUpTo(it.place, it.count, at));
        if (nodes.includes(-1)) return this.otherPlayers(trees);
        this.different = nodes;
        this.viewers.forEach((viewer, i) => viewer.marks = [{ node: nodes[i] }]);
        const words = `They first differ at node ${grouped(nodes[0] + 1)}, which is marked in both pictures.`;
        return el("div", {}, el("p", {}, `${words} In canonical text it is`),
            this.twoLines(trees.map((tree, i) => shown(decoded(tree.lineOf(nodes[i]))))));
    }

    otherPlayers(games) {
        return el("p", {}, `Their players differ: ${games.map(it => quoted(it.players) || "none").join("; ")}.`);
    }

    // Two lines, with what is not the same in both marked.
    twoLines(lines) {
        const [a, b] = lines, start = firstDifference(a, b), most = Math.min(a.length, b.length) - start;
        let same = 0;
        while (same < most && a.at(-1 - same) === b.at(-1 - same)) same++;
        const parts = lines.flatMap((line, i) => {
            const end = line.length - same, from = Math.max(0, start - AROUND), to = end + AROUND;
            const mark = el("mark", {}, line.slice(start, Math.min(end, start + MOST_DIFFERENT)));
            const before = `${from > 0 ? "…" : ""}${line.slice(from, start)}`;
            const after = `${line.slice(end, to)}${to < line.length ? "…" : ""}`;
            return [el("dt", {}, this.files[i].name), el("dd", {}, before, mark, after)];
        });
        return el("dl", { class: "lines" }, ...parts);
    }

    async showTables() {
        const { calls, signal } = this;
        const tables = (await this.both(it => it.canonical(calls, signal))).map(it => new Table(it));
        const marked = this.isAlike ? null : this.differentProfile(tables);
        this.element.append(this.isAlike ? this.otherNames(tables)
            : marked === null ? this.otherLabels(tables) : this.profile(tables[0], marked));
        this.element.append(this.besides(i => new TableViewer(tables[i], { marked }).element));
    }

    // The first profile whose payoffs differ; null if players or strategies do.
    differentProfile([a, b]) {
        if (!areEqual([a.players, a.strategies], [b.players, b.strategies])) return null;
        const [ours, theirs] = [a, b].map(it => it.bytes.subarray(it.lines[0])), at = firstDifference(ours, theirs);
        // The payoffs are the same: it is labels, in bytes that are not UTF-8.
        if (at === ours.length) return null;
        return Math.min(Math.max(0, lastUpTo(a.lines, a.profiles, at + a.lines[0])), a.profiles - 1);
    }

    profile(table, place) {
        const chosen = (it, i) => `${table.playerName(i + 1)} ${strategyOf(table, i + 1, it)}`;
        const words = table.profileAt(place).map(chosen).join(", ");
        return el("p", {}, `The first profile at which the payoffs differ is marked: ${words}.`);
    }

    otherLabels([a, b]) {
        if (!areEqual(a.players, b.players)) return this.otherPlayers([a, b]);
        const player = a.strategies.findIndex((it, i) => !areEqual(it, b.strategies[i]));
        if (player < 0) return el("p", {}, "Their labels differ in bytes that are not UTF-8.");
        const list = all => `${quoted(all.slice(0, 8))}${all.length > 8 ? ", …" : ""}`;
        const both = [a, b].map(it => list(it.strategies[player])).join("; ");
        return el("p", {}, `The strategies of ${a.playerName(player + 1)} differ: ${both}.`);
    }

    // Draws the pictures, once they are on the page.
    attached() {
        for (const viewer of this.viewers) viewer.draw();
        if (this.different) this.viewers.forEach((viewer, i) => viewer.reveal(this.different[i]));
    }
}
