"use strict";
// What is written at each part of a picture, measured, and cut where it is too long.

// The size, weight and slope of each kind of words, as page.css has them for the picture.
const TYPE = {
    action: "13px", chance: "12px", who: "600 13px", set: "italic 12px", name: "12px", pays: "600 13px",
    outcome: "italic 12px", note: "12px", legend: "600 13px",
};
const PAYS_GAP = 8, WORD_GAP = 6;
// Of so many players at most, payoffs are looked at for a picture.
const MOST_PAYS = 40;

const pen = document.createElement("canvas").getContext("2d");
const widths = new Map();

function widthOf(words, kind) {
    const key = `${kind} ${words}`;
    if (!widths.has(key)) {
        if (widths.size > 20000) widths.clear();
        pen.font = `${TYPE[kind]} ${getComputedStyle(document.body).fontFamily}`;
        widths.set(key, pen.measureText(words).width);
    }
    return widths.get(key);
}

// Cuts words that are wider than `most`, and ends them with an ellipsis.
function cut(words, kind, most) {
    if (words.length < 400 && widthOf(words, kind) <= most) return words;
    const letters = [...words.slice(0, 400)];
    let low = 0, high = letters.length;
    while (low < high) {
        const middle = (low + high + 1) >> 1;
        if (widthOf(`${letters.slice(0, middle).join("")}…`, kind) <= most) low = middle;
        else high = middle - 1;
    }
    return `${letters.slice(0, low).join("").trimEnd()}…`;
}

// A piece of words: its kind, its player for the colour, its width, and all of it where it was cut.
function piece(words, kind, most, player = null) {
    const whole = shown(words), text = cut(whole, kind, most);
    return { text, kind, player, width: widthOf(text, kind), whole: text === whole ? null : whole };
}

// A line of pieces, side by side; what would make it wider than `most` is left out, and an ellipsis stands for it.
function lineOf(pieces, gap, most = Infinity) {
    const whole = pieces.map(it => it.whole ?? it.text).join(gap === PAYS_GAP ? ", " : " ");
    const line = { pieces: [], width: 0, whole, isCut: pieces.some(it => it.whole !== null) };
    for (const it of pieces) {
        const width = line.width + (line.pieces.length > 0 ? gap : 0) + it.width;
        if (line.pieces.length > 0 && width > most) {
            line.isCut = true;
            line.pieces.push({ ...piece("…", it.kind, most), dx: gap });
            line.width += gap + widthOf("…", it.kind);
            break;
        }
        line.pieces.push({ ...it, dx: line.pieces.length > 0 ? gap : 0 });
        line.width = width;
    }
    return line;
}

// One line with another after it, if there is one.
function beside(line, after, gap = 12) {
    if (!after) return line;
    const pieces = [...line.pieces, ...after.pieces.map((it, i) => i === 0 ? { ...it, dx: gap } : it)];
    const whole = `${line.whole} ${after.whole}`, isCut = line.isCut || after.isCut;
    return { pieces, width: line.width + gap + after.width, whole, isCut };
}

// Payoffs as they are written in a picture: with a minus sign in place of a hyphen.
const signed = number => number.replace("-", "\u2212");

// What is written in a picture of a tree. `numbers` has the numbers of sets and outcomes in the file, if they are to
// be shown.
class PictureWords {
    constructor(tree, { names, numbers }) {
        Object.assign(this, { tree, names, numbers });
        this.labelled = new Set(); // the sets whose name is written already
    }

    // Fills in what is written at an item.
    describe(item) {
        const { tree } = this, { node } = item, set = tree.setOf(node);
        item.action = item.parent && item.more === 0 ? this.actionTo(node) : null;
        item.under = [];
        item.outcome = null;
        if (item.more > 0) item.right = lineOf([piece(`${grouped(item.more)} more`, "note", 160)], WORD_GAP);
        else if (item.closed) item.right = lineOf([piece(counted(item.below, "node", "nodes"), "note", 160)], WORD_GAP);
        else if (set) item.right = null;
        else {
            item.right = this.paid(node);
            item.outcome = this.outcomeOf(node, this.nameOf(item));
        }
        if (item.more > 0) return;
        if (set && !this.labelled.has(set)) {
            this.labelled.add(set);
            item.who = this.mover(set);
            item.under.push(item.who);
        }
        const name = set ? this.nameOf(item) : [];
        if (name.length > 0) item.under.push(lineOf(name, WORD_GAP));
        if (set && tree.outcomeOf(node)) item.under.push(beside(this.paid(node), this.outcomeOf(node)));
    }

    actionTo(node) {
        const { label, chance } = this.tree.actionTo(node), player = this.tree.setOf(this.tree.parent[node]).player;
        const pieces = label === "" ? [] : [piece(label, "action", 140, player)];
        if (chance !== null) pieces.push(piece(chance, "chance", 110, player));
        return lineOf(pieces, WORD_GAP);
    }

    // Who moves at a set, and the set's name.
    mover(set) {
        const pieces = [piece(this.tree.playerName(set.player), "who", 120, set.player)];
        if (this.numbers) pieces.push(piece(`set ${this.numbers.set(set)}`, "name", 120));
        if (this.names && set.name !== "") pieces.push(piece(set.name, "set", 140));
        return lineOf(pieces, WORD_GAP, 230);
    }

    paid(node) {
        const pays = this.tree.paysAt(node).slice(0, MOST_PAYS);
        return lineOf(pays.map((it, i) => piece(signed(it), "pays", 110, i + 1)), PAYS_GAP, 420);
    }

    // The name of a node as a list of pieces: of none if there is no name, or the action or the set has it too.
    nameOf({ node, action }) {
        const { tree } = this, name = this.names ? tree.nameOf(node) : "";
        const label = action ? tree.actionTo(node).label : "";
        return ["", label, tree.setOf(node)?.name].includes(name) ? [] : [piece(name, "name", 150)];
    }

    // The number and the name of the outcome at a node, after other pieces; null if there are none.
    outcomeOf(node, pieces = []) {
        const outcome = this.tree.outcomeOf(node);
        if (outcome && this.numbers) pieces.push(piece(`outcome ${this.numbers.outcome(outcome)}`, "name", 120));
        if (outcome && this.names && outcome.name !== "") pieces.push(piece(outcome.name, "outcome", 150));
        return pieces.length > 0 ? lineOf(pieces, WORD_GAP) : null;
    }
}
