"use strict";
// The layout of a long row of moves, such as a centipede: the moves side by side, and under each what ends the game
// there.

const DROP = 48, LEAST_MOVES = 4, APART = 14, LEAST_STEP = 50;
// How far above a move its words stand: higher where the lines of sets run in arcs.
const RAISED = { plain: 24, arcs: 40 };

// The child that the row goes on to: one that moves, or is closed, or else the last.
const goesOn = ({ children }) =>
    children.find(it => it.children.length > 0) ?? children.find(it => it.closed) ?? children.at(-1);

// Whether each node that moves has at most one child beside the one that goes on, and that one ends.
function isRowOfMoves(items) {
    const moves = items.filter(it => it.children.length > 0), ends = it => it.children.length === 0 && !it.closed;
    return moves.length >= LEAST_MOVES
        && moves.every(({ children }) => children.length <= 2 && children.filter(it => !ends(it)).length <= 1);
}

const halfOf = (...lines) => Math.max(0, ...lines.map(it => it ? it.width / 2 : 0));

// What the words at a move take: above it and below, to each side, and beside the line down from it.
function roomOf(item, drop) {
    const above = halfOf(...item.under);
    if (!drop) return { above, below: 0, beside: 0 };
    return { above, below: halfOf(drop.right, drop.outcome), beside: drop.action.width + 12 };
}

// The places of the moves, each as near to the one before as what is written at both allows.
function placeRow(moves) {
    let x = MARGIN + 10, before = null;
    for (const item of moves) {
        const drop = item.children.find(it => it !== goesOn(item)), room = roomOf(item, drop);
        if (before) {
            const words = [before.above + room.above, before.below + room.below, before.beside].map(it => it + APART);
            x += Math.max(item.action.width + 30, ...words, LEAST_STEP);
        }
        Object.assign(item, { x, y: 0 });
        if (drop) Object.assign(drop, { x, y: DROP });
        before = room;
    }
    const end = goesOn(moves.at(-1));
    Object.assign(end, { x: x + Math.max(end.action.width + 26, before.beside + APART, LEAST_STEP), y: 0 });
}

// What is written at an item: who moves above it, an action over or beside its line, and payoffs under it or, at the
// end of the row, beside it.
function wordsInRow(item, raised) {
    const words = [], { x, y, parent, action, under, right, outcome } = item, isDrop = y > 0;
    const put = (line, ...place) => words.push(wordsAt(item, line, ...place));
    under.forEach((line, i) => put(line, x, y - raised - 15 * (under.length - 1 - i), "middle"));
    if (action && isDrop) put(action, x + 6, y - DROP / 2 + 6, "start");
    else if (action) put(action, (parent.x + x) / 2, y - 6, "middle");
    if (right && isDrop) put(right, x, y + 19, "middle");
    else if (right) put(beside(right, outcome), x + BESIDE, y + 4.5, "start");
    if (outcome && isDrop) put(outcome, x, y + 35, "middle");
    return words;
}

function layOutRow(tree, items) {
    const sets = membersOfSets(items, tree), raised = sets.length > 0 ? RAISED.arcs : RAISED.plain;
    placeRow(items.filter(it => it.children.length > 0));
    const words = items.flatMap(it => wordsInRow(it, raised));
    const lines = items.filter(it => it.parent)
        .map(item => ({ item, points: [[item.parent.x, item.parent.y], [item.x, item.y]] }));
    const arc = (a, b) => `M${a.x} ${a.y}C${a.x + 16} ${a.y - 36} ${b.x - 16} ${b.y - 36} ${b.x} ${b.y}`;
    const dashes = sets.map(({ set, members }) =>
        ({ set, path: members.slice(1).map((it, i) => arc(members[i], it)).join("") }));
    return { items, words, lines, dashes, down: false, ...boxOf(items, words) };
}
