"use strict";
// Where the parts of a picture of a tree stand. A level is a column if the picture runs from left to right, and a
// row if it runs down. What it gives is drawn by picture.js: the items have `x` and `y`, and there are lines and words.

// The space between lanes, from a node to what is written at it, and around the picture.
const LANE = { across: 14, down: 22 }, BESIDE = 10, MARGIN = 16;
// How far the line of a set bends between members at different levels, as a part of its length.
const BEND = 0.2;
const SLOPES = { across: { least: 26, share: 0.24, most: 90 }, down: { least: 62, share: 0.2, most: 120 } };

const within = (value, { least, share, most }) => Math.min(most, Math.max(least, value * share));

// The room that each item takes on both sides of its place across.
function roomAcross(item) {
    item.before = item.action && item.action.width > 0 ? 19 : 10;
    item.after = item.under.length > 0 && item.parent ? 5 + 15 * item.under.length : 10;
    item.further = item.children.length > 0 || item.right === null ? 0 : 1;
    item.apart = 0;
}

// Which way the line to an item goes, in a picture that runs down: -1 to the left, 0 straight, 1 to the right.
function side(item) {
    if (!item.parent) return 0;
    const siblings = item.parent.children;
    return Math.sign(2 * siblings.indexOf(item) - (siblings.length - 1));
}

function roomDown(item) {
    const wide = Math.max(12, (item.right?.width ?? 0) / 2 + 8, (item.outcome?.width ?? 0) / 2 + 7);
    const under = Math.max(0, ...item.under.map(it => it.width));
    const label = item.action ? item.action.width : 0, toLeft = item.side < 0;
    item.before = Math.max(wide, toLeft ? label + 4 : 0, toLeft && under > 0 ? under + 14 : 0);
    item.after = Math.max(wide, toLeft ? 0 : label + 4, !toLeft && under > 0 ? under + 14 : 0);
    item.further = item.children.length > 0 || item.right === null ? 0 : 1;
    item.apart = 0;
}

// In a picture that runs down, the label of a line between two others stands between the lines.
function roomBetween(item) {
    const { children } = item;
    for (let i = 0; i + 1 < children.length; i++) {
        // A label stands to the left of a line to the left, and to the right of others.
        const [one, next] = [children[i], children[i + 1]];
        const label = one.side >= 0 ? one.action : next.side < 0 ? next.action : null;
        one.apart = label ? 2 * (label.width + 12) : 0;
    }
}

// Gives each set with members at one level a lane there, so that no line runs over another or over another node:
// the lane of an item is how far it is moved along. Terminal nodes stand beyond all lanes that pass them.
function placeLanes(items, sets) {
    const byLevel = [];
    for (const item of items) (byLevel[item.level] ??= []).push(item);
    const spanOf = new Map();
    for (const { members } of sets)
        for (const level of new Set(members.map(it => it.level))) {
            const here = members.filter(it => it.level === level);
            if (here.length > 1) for (const it of here) spanOf.set(it, here);
        }
    return byLevel.map(all => {
        const spans = [...new Set(all.map(it => spanOf.get(it) ?? [it]))].map(members => ({
            members, from: Math.min(...members.map(it => it.across)), to: Math.max(...members.map(it => it.across)),
        }));
        return lanesOf(spans.sort((a, b) => a.from - b.from || b.to - a.to));
    });
}

function lanesOf(spans) {
    const ends = [], isAlone = span => span.members.length === 1 && span.members[0].right !== null;
    for (const span of spans.filter(it => !isAlone(it))) {
        let lane = ends.findIndex(end => end < span.from);
        if (lane < 0) lane = ends.length;
        ends[lane] = span.to;
        for (const it of span.members) it.lane = lane;
    }
    const wide = spans.filter(it => it.members.length > 1);
    for (const { members: [item], from } of spans.filter(isAlone))
        item.lane = 1 + Math.max(-1, ...wide.map(it => it.from < from && it.to > from ? it.members[0].lane : -1));
    return Math.max(1, ends.length);
}

// What the layout of each level needs: how much its lines slope, and how wide and high what is written there is.
function levelsAlong(items, slopes) {
    const levels = [];
    for (const item of items) {
        const at = (levels[item.level] ??= { rise: 0, label: 0, under: 0, lines: 0, right: 0 });
        at.lines = Math.max(at.lines, item.under.length);
        at.under = Math.max(at.under, 0, ...item.under.map(it => it.width));
        if (item.right) at.right = Math.max(at.right, beside(item.right, item.outcome).width + BESIDE);
    }
    for (const item of items.filter(it => it.parent)) {
        const at = levels[item.parent.level + 1];
        at.rise = Math.max(at.rise, Math.abs(item.across - item.parent.across));
        if (item.action) at.label = Math.max(at.label, item.action.width);
    }
    for (const at of levels) at.slope = within(at.rise, slopes);
    return levels;
}

// From left to right: a line slopes, and then runs straight to its node; above that part stands the action, and below
// it who moves at the node.
function alongAcross(items, lanes) {
    const levels = levelsAlong(items, SLOPES.across);
    levels.forEach((at, i) => {
        const before = levels[i - 1];
        if (!before) at.start = MARGIN + (at.under > 0 ? at.under + BESIDE + 2 : 8);
        else {
            at.bend = before.fan + at.slope;
            const written = at.bend + Math.max(at.label + 8, at.under + 6) + BESIDE;
            at.start = Math.max(written, before.start + before.right + 24);
        }
        at.fan = at.start + (lanes[i] - 1) * LANE.across;
    });
    for (const item of items) {
        item.x = levels[item.level].start + item.lane * LANE.across;
        item.y = MARGIN + item.across;
    }
    return levels;
}

// Down: lines are straight from node to node, and the action stands beside the middle of its line.
function alongDown(items, lanes) {
    const levels = levelsAlong(items, SLOPES.down);
    levels.forEach((at, i) => {
        const before = levels[i - 1];
        at.start = before ? before.fan + at.slope + 32 * Math.max(0, at.lines - 1) : MARGIN + 26;
        at.fan = at.start + (lanes[i] - 1) * LANE.down;
    });
    for (const item of items) {
        item.x = MARGIN + item.across;
        item.y = levels[item.level].start + item.lane * LANE.down;
    }
    return levels;
}

// The line to an item, as points.
function lineTo(item, levels, down) {
    const { parent } = item, first = levels[parent.level + 1];
    if (down) {
        const knee = item.level > parent.level + 1 ? [[item.x, first.start]] : [];
        return [[parent.x, parent.y], ...knee, [item.x, item.y]];
    }
    const { fan } = levels[parent.level], points = [[parent.x, parent.y]];
    if (fan > parent.x) points.push([fan, parent.y]);
    return [...points, [first.bend, item.y], [item.x, item.y]];
}

// The dashed lines of a set: straight between members at one level, and bent between others.
function setLines(members) {
    const order = [...members].sort((a, b) => a.level - b.level || a.across - b.across);
    return order.slice(1).map((b, i) => {
        const a = order[i];
        if (a.level === b.level) return `M${a.x} ${a.y}L${b.x} ${b.y}`;
        // It bends to the lower side of the straight line between the two.
        const bend = b.x >= a.x ? BEND : -BEND;
        const x = (a.x + b.x) / 2 - bend * (b.y - a.y), y = (a.y + b.y) / 2 + bend * (b.x - a.x);
        return `M${a.x} ${a.y}Q${x} ${y} ${b.x} ${b.y}`;
    }).join("");
}

const wordsAt = (item, line, x, y, anchor) => ({ item, line, x, y, anchor });

function wordsAcross(item, levels) {
    const words = [], { x, y, parent } = item;
    if (item.action) words.push(wordsAt(item, item.action, levels[parent.level + 1].bend + 3, y - 6, "start"));
    const left = levels[item.level].start - BESIDE, first = parent ? y + 15 : y + 4;
    item.under.forEach((line, i) => words.push(wordsAt(item, line, left, first + 15 * i, "end")));
    if (item.right) words.push(wordsAt(item, beside(item.right, item.outcome), x + BESIDE, y + 4.5, "start"));
    return words;
}

function wordsDown(item, levels, spot) {
    const words = [], { x, y, parent } = item;
    if (item.action) {
        const end = levels[parent.level + 1].start, to = item.level === parent.level + 1 ? y : end;
        const middle = [(parent.x + x) / 2, (parent.y + to) / 2];
        if (item.side < 0) words.push(wordsAt(item, item.action, middle[0] - 5, middle[1] - 1, "end"));
        else words.push(wordsAt(item, item.action, middle[0] + 5, middle[1] + (item.side > 0 ? -1 : 4), "start"));
    }
    const last = item.under.length - 1;
    item.under.forEach((line, i) => {
        const up = y - 5 - 15 * (last - i);
        if (spot && line === item.who) words.push(wordsAt(item, line, spot, y - 6, "middle"));
        else if (!parent) words.push(wordsAt(item, line, x, up - 8, "middle"));
        else words.push(wordsAt(item, line, x + (item.side < 0 ? -11 : 11), up, item.side < 0 ? "end" : "start"));
    });
    if (item.right) words.push(wordsAt(item, item.right, x, y + 20, "middle"));
    if (item.outcome) words.push(wordsAt(item, item.outcome, x, y + 36, "middle"));
    return words;
}

const segmentsOf = lines => lines.flatMap(({ points }) => points.slice(1).map((point, i) => [points[i], point]));

// Whether a line from point to point meets a box.
function meets([[x1, y1], [x2, y2]], { left, right, top, bottom }) {
    // The part of the line, from 0 to 1, that is between left and right, and between top and bottom.
    let from = 0, to = 1;
    for (const [start, end, low, high] of [[x1, x2, left, right], [y1, y2, top, bottom]]) {
        if (start === end) {
            if (start < low || start > high) return false;
            continue;
        }
        const a = (low - start) / (end - start), b = (high - start) / (end - start);
        from = Math.max(from, Math.min(a, b));
        to = Math.min(to, Math.max(a, b));
    }
    return from <= to;
}

const boxOfWords = ({ line, x, y, anchor }) => {
    const left = anchor === "start" ? x : anchor === "end" ? x - line.width : x - line.width / 2;
    return { left, right: left + line.width, top: y - 13, bottom: y + 5 };
};

// In a picture that runs down, who moves at a set of several nodes stands above its dashed line, where nothing else is:
// in the middle of the widest free part, if there is one that is wide enough.
function spotsOf(sets, lines, words) {
    const spots = new Map(), segments = segmentsOf(lines);
    const boxes = words.filter(it => it.line !== it.item.who).map(boxOfWords);
    for (const { left, right, top, bottom } of boxes)
        segments.push([[left, top], [right, top]], [[left, bottom], [right, bottom]]);
    for (const { members } of sets) {
        const named = members.find(it => it.who), order = [...members].sort((a, b) => a.x - b.x);
        if (!named || members.some(it => it.level !== named.level)) continue;
        const { y } = named, { width } = named.who, isFree = x =>
            !segments.some(it => meets(it, { left: x - 5, right: x + width + 5, top: y - 24, bottom: y + 1 }));
        let best = null, run = null;
        for (let x = order[0].x + 10; x + width + 10 <= order.at(-1).x; x += 4) {
            run = isFree(x) ? { from: run ? run.from : x, to: x } : null;
            if (run && (!best || run.to - run.from > best.to - best.from)) best = run;
        }
        if (best) spots.set(named, (best.from + best.to + width) / 2);
    }
    return spots;
}

// What the picture takes, with all words and nodes.
function boxOf(items, words) {
    let left = Infinity, top = Infinity, right = 0, bottom = 0;
    for (const { x, y } of items) {
        left = Math.min(left, x - 10);
        top = Math.min(top, y - 12);
        right = Math.max(right, x + 10);
        bottom = Math.max(bottom, y + 12);
    }
    for (const it of words.map(boxOfWords)) {
        left = Math.min(left, it.left);
        right = Math.max(right, it.right);
        top = Math.min(top, it.top);
        bottom = Math.max(bottom, it.bottom);
    }
    const width = right - left + 2 * MARGIN, height = bottom - top + 2 * MARGIN;
    return { left: left - MARGIN, top: top - MARGIN, width, height };
}

// How many words are met by a line or by other words.
function clashes({ lines, words }) {
    const segments = segmentsOf(lines), boxes = words.filter(it => it.line.width > 0).map(it => {
        const { left, right, top, bottom } = boxOfWords(it);
        return { left: left + 1, right: right - 1, top: top + 3, bottom: bottom - 3 };
    });
    const overlap = (a, b) => a.left < b.right && b.left < a.right && a.top < b.bottom && b.top < a.bottom;
    const isMet = (box, i) => segments.some(it => meets(it, box)) || boxes.some((it, j) => j > i && overlap(box, it));
    return boxes.filter(isMet).length;
}

function layOut(tree, items, down) {
    const sets = membersOfSets(items, tree);
    for (const item of items) item.lane = 0;
    placeLevels(items, sets);
    for (const item of items) item.side = down ? side(item) : 0;
    for (const item of items) if (down) roomDown(item); else roomAcross(item);
    if (down) items.forEach(roomBetween);
    pack(items);
    const lanes = placeLanes(items, sets), levels = down ? alongDown(items, lanes) : alongAcross(items, lanes);
    const lines = items.filter(it => it.parent).map(item => ({ item, points: lineTo(item, levels, down) }));
    let words = items.flatMap(item => down ? wordsDown(item, levels, null) : wordsAcross(item, levels));
    if (down) {
        const spots = spotsOf(sets, lines, words);
        words = items.flatMap(item => wordsDown(item, levels, spots.get(item)));
    }
    const dashes = sets.map(({ set, members }) => ({ set, path: setLines(members) }));
    // Sets between levels, in more than a few nodes, are clearer from left to right.
    const isBent = items.length > 9 && sets.some(({ members }) => members.some(it => it.level !== members[0].level));
    return { items, words, lines, dashes, down, isBent, lanes: Math.max(...lanes), ...boxOf(items, words) };
}
