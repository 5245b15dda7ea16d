"use strict";
// Places the items of a picture across: subtrees as close as what they take allows, a parent in the middle of
// its children. What a subtree takes is an outline: for each level from which place to which.

// An outline whose item is at 0. An item takes its level, the levels through which the line to it runs, and,
// with what is written beside it, `further` levels.
function outlineOf(item) {
    const outline = { low: [], high: [] };
    const first = item.parent ? item.parent.level + 1 : item.level;
    for (let level = first; level <= item.level + item.further; level++) {
        outline.low[level] = -item.before;
        outline.high[level] = item.after;
    }
    return outline;
}

// Takes another outline, moved by `shift`, into one.
function join(outline, other, shift) {
    for (let level = 0; level < other.low.length; level++) {
        if (other.low[level] === undefined) continue;
        outline.low[level] = Math.min(outline.low[level] ?? Infinity, other.low[level] + shift);
        outline.high[level] = Math.max(outline.high[level] ?? -Infinity, other.high[level] + shift);
    }
}

// How far an outline must stand beyond another that is before it.
function distance(before, after) {
    let least = -Infinity;
    for (let level = 0; level < Math.min(before.high.length, after.low.length); level++)
        if (before.high[level] !== undefined && after.low[level] !== undefined)
            least = Math.max(least, before.high[level] - after.low[level]);
    return least;
}

// Where siblings stand if each is as near to the first as it can, and the same from the last, halfway between:
// so the ones in the middle are spread evenly.
function placesOf(children) {
    const near = [], far = [], last = children.length - 1;
    const first = { low: [], high: [] };
    children.forEach((child, i) => {
        near[i] = i === 0 ? 0 : Math.max(distance(first, child.outline), near[i - 1] + children[i - 1].apart);
        join(first, child.outline, near[i]);
    });
    const beyond = { low: [], high: [] };
    for (let i = last; i >= 0; i--) {
        const { outline, apart } = children[i];
        far[i] = i === last ? near[last] : Math.min(-distance(outline, beyond), far[i + 1] - apart);
        join(beyond, outline, far[i]);
    }
    return near.map((place, i) => (place + far[i]) / 2);
}

// The middle of places; that of an odd number is the one in the middle, if it is near.
function middleOf(places) {
    const middle = (places[0] + places.at(-1)) / 2, inner = places[(places.length - 1) / 2];
    return inner !== undefined && Math.abs(inner - middle) < (places.at(-1) - places[0]) * 0.2 ? inner : middle;
}

function pack(items) {
    for (const item of [...items].reverse()) {
        item.outline = outlineOf(item);
        if (item.children.length === 0) continue;
        const places = placesOf(item.children), middle = middleOf(places);
        item.children.forEach((child, i) => {
            child.offset = places[i] - middle;
            join(item.outline, child.outline, child.offset);
            child.outline = null;
        });
    }
    for (const item of items) item.across = item.parent ? item.parent.across + item.offset : 0;
    const least = Math.min(...items.map(it => it.across - it.before));
    for (const item of items) item.across -= least;
}
