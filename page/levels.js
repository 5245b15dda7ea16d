"use strict";
// The level of each item of a picture: how far it is from the root. The members of an information set share a level
// where that is possible; it is not where a path meets a set twice, or where two sets meet in either order.

// The levels of groups of items, each above those of its children; null if they go round in a circle.
function levelsOf(items, group) {
    const level = new Map(), waiting = new Map(), members = new Map();
    for (const item of items) {
        const at = group.get(item);
        if (!members.has(at)) members.set(at, []);
        members.get(at).push(item);
        waiting.set(at, (waiting.get(at) ?? 0) + (item.parent ? 1 : 0));
    }
    const ready = [...members.keys()].filter(it => waiting.get(it) === 0);
    for (const it of ready) level.set(it, 0);
    for (let i = 0; i < ready.length; i++)
        for (const child of members.get(ready[i]).flatMap(it => it.children)) {
            const at = group.get(child), left = waiting.get(at) - 1;
            level.set(at, Math.max(level.get(at) ?? 0, level.get(ready[i]) + 1));
            waiting.set(at, left);
            if (left === 0) ready.push(at);
        }
    return ready.length === members.size ? level : null;
}

// The items of each set that has two or more of them, in order of first use.
function membersOfSets(items, tree) {
    const members = new Map();
    for (const item of items) {
        const set = item.more > 0 ? null : tree.setOf(item.node);
        if (!set) continue;
        if (!members.has(set)) members.set(set, []);
        members.get(set).push(item);
    }
    return [...members].filter(([, all]) => all.length > 1).map(([set, all]) => ({ set, members: all }));
}

function placeLevels(items, sets) {
    const joined = (group, { set, members }) => {
        for (const item of members) group.set(item, set);
        return group;
    };
    const alone = () => new Map(items.map(it => [it, it]));
    let group = sets.reduce(joined, alone()), levels = levelsOf(items, group);
    // Not all can be joined: one after the other, as far as it goes.
    if (!levels) {
        group = alone();
        levels = levelsOf(items, group);
        for (const it of sets) {
            const more = joined(new Map(group), it), found = levelsOf(items, more);
            if (found) [group, levels] = [more, found];
        }
    }
    for (const item of items) item.level = levels.get(group.get(item));
}
