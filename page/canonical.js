"use strict";
// Reads canonical text, as section 8 of docs/FORMATS.md describes it, for pictures and tables. It judges
// nothing: it is given only what the proved calls have written. Bytes that are not UTF-8 are read as U+FFFD.

const SPACE = 32, LINE_FEED = 10, QUOTE = 34, BACKSLASH = 92, CLOSING = 125;
// How many milliseconds a long reading takes before the page may answer.
const SLICE = 25;
const SHORT = 16;

// The tokens of a canonical text, from its first byte on.
class CanonicalTokens {
    constructor(bytes) {
        this.bytes = bytes;
        this.at = 0;
        this.decoder = new TextDecoder("utf-8", { ignoreBOM: true });
    }

    // The first byte of the next token; undefined at the end.
    peek() {
        while (this.bytes[this.at] === SPACE || this.bytes[this.at] === LINE_FEED) this.at++;
        return this.bytes[this.at];
    }

    isLabel() {
        return this.peek() === QUOTE;
    }

    passLabel() {
        this.peek();
        do this.at = this.bytes.indexOf(QUOTE, this.at + 1);
        while (this.bytes[this.at - 1] === BACKSLASH);
        this.at++;
    }

    label() {
        this.peek();
        const start = this.at + 1;
        this.passLabel();
        return this.plain(start, this.at - 1)
            ?? this.decoder.decode(this.bytes.subarray(start, this.at - 1)).replaceAll('\\"', '"');
    }

    // A short label of plain letters, which takes much less time so; null for others.
    plain(start, end) {
        if (end - start > SHORT) return null;
        let text = "";
        for (let i = start; i < end; i++) {
            if (this.bytes[i] >= 128 || this.bytes[i] === BACKSLASH) return null;
            text += String.fromCharCode(this.bytes[i]);
        }
        return text;
    }

    bare() {
        this.peek();
        const start = this.at;
        const ends = byte => byte === undefined || byte === SPACE || byte === LINE_FEED;
        while (!ends(this.bytes[this.at])) this.at++;
        return String.fromCharCode(...this.bytes.subarray(start, this.at));
    }

    list(item) {
        const items = [];
        this.bare();
        while (this.peek() !== CLOSING) items.push(item());
        this.bare();
        return items;
    }
}

// A tree. A node is a number, from 0 in prefix order, and what is known of nodes stands in arrays: so a tree of
// a million nodes takes some megabytes, and nothing walks it by recursion.
class Tree {
    constructor(bytes, most) {
        this.bytes = bytes;
        this.count = 0;
        this.sets = [];
        this.outcomes = [];
        // The place of a node's set in `sets`, -1 at a terminal node; of its outcome in `outcomes`, -1 for none.
        this.set = new Int32Array(most);
        this.outcome = new Int32Array(most);
        // Its parent, -1 for the root; the number of its action, from 0; and one past the last node below it.
        this.parent = new Int32Array(most);
        this.action = new Int32Array(most);
        this.end = new Int32Array(most);
        this.depth = new Int32Array(most);
        // Where its line begins.
        this.place = new Uint32Array(most);
    }

    setOf(node) {
        return this.set[node] < 0 ? null : this.sets[this.set[node]];
    }

    outcomeOf(node) {
        return this.outcome[node] < 0 ? null : this.outcomes[this.outcome[node]];
    }

    // The action of the parent's set that leads to a node.
    actionTo(node) {
        return node === 0 ? null : this.setOf(this.parent[node]).actions[this.action[node]];
    }

    playerName(player) {
        return player === 0 ? "chance" : shown(this.players[player - 1]) || `player ${player}`;
    }

    nameOf(node) {
        const tokens = new CanonicalTokens(this.bytes);
        tokens.at = this.place[node] + 2;
        return tokens.label();
    }

    // The line of a node.
    lineOf(node) {
        const end = node + 1 < this.count ? this.place[node + 1] : this.bytes.length;
        return this.bytes.subarray(this.place[node], end - 1);
    }

    // The sets of a player, in their order.
    setsOf(player) {
        this.byPlayer ??= Map.groupBy(this.sets, it => it.player);
        return this.byPlayer.get(player) ?? [];
    }

    // What a terminal node pays, or an outcome on the way; null if nothing is paid on the way.
    paysAt(node) {
        const outcome = this.outcomeOf(node);
        return outcome ? outcome.payoffs : this.set[node] < 0 ? this.players.map(() => "0") : null;
    }
}

// Reads nodes one by one into a tree.
class TreeReader {
    constructor(tokens, tree) {
        this.tokens = tokens;
        this.tree = tree;
        this.byPlayer = tree.players.map(() => []);
        this.byPlayer.unshift([]);
        this.open = []; // nodes that still wait for children
        this.children = [];
    }

    readSet(isChance) {
        const tokens = this.tokens, player = isChance ? 0 : Number(tokens.bare()), number = Number(tokens.bare());
        const known = this.byPlayer[player];
        if (tokens.isLabel()) {
            const name = tokens.label();
            const actions = tokens.list(() => ({ label: tokens.label(), chance: isChance ? tokens.bare() : null }));
            known.push(this.tree.sets.length);
            this.tree.sets.push({ index: this.tree.sets.length, player, number, name, actions, size: 0 });
        }
        const set = known[number - 1];
        this.tree.sets[set].size++;
        return set;
    }

    readOutcome() {
        const tokens = this.tokens, number = Number(tokens.bare());
        if (number > 0 && tokens.isLabel()) {
            const name = tokens.label(), payoffs = tokens.list(() => tokens.bare());
            this.tree.outcomes.push({ index: number - 1, number, name, payoffs });
        }
        return number - 1;
    }

    readNode() {
        const { tree, tokens, open, children } = this, node = tree.count++;
        tokens.peek();
        tree.place[node] = tokens.at;
        const kind = tokens.bare();
        tokens.passLabel();
        tree.set[node] = kind === "t" ? -1 : this.readSet(kind === "c");
        tree.outcome[node] = this.readOutcome();
        tree.parent[node] = open.length > 0 ? open.at(-1) : -1;
        tree.depth[node] = open.length;
        if (open.length > 0) tree.action[node] = children[children.length - 1]++;
        if (kind !== "t") {
            open.push(node);
            children.push(0);
        }
        tree.end[node] = node + 1;
        while (open.length > 0 && children.at(-1) === tree.setOf(open.at(-1)).actions.length) {
            tree.end[open.pop()] = tree.count;
            children.pop();
        }
    }
}

function countLines(bytes) {
    let lines = 0;
    for (let at = bytes.indexOf(LINE_FEED); at >= 0; at = bytes.indexOf(LINE_FEED, at + 1)) lines++;
    return lines;
}

async function readTree(bytes) {
    const tokens = new CanonicalTokens(bytes);
    tokens.at = 7;
    // Each node has a line, which may have further ones in its labels.
    const tree = new Tree(bytes, countLines(bytes));
    tree.title = tokens.label();
    tree.players = tokens.list(() => tokens.label());
    tree.comment = tokens.label();
    const reader = new TreeReader(tokens, tree);
    for (let until = performance.now() + SLICE; tokens.peek() !== undefined;) {
        reader.readNode();
        if (tree.count % 256 === 0 && performance.now() > until) {
            await breath();
            until = performance.now() + SLICE;
        }
    }
    return tree;
}

// A table: its labels, and where the line of each profile begins. The first player's strategy advances fastest.
class Table {
    constructor(bytes) {
        const tokens = new CanonicalTokens(bytes);
        tokens.at = 7;
        this.bytes = bytes;
        this.title = tokens.label();
        this.players = tokens.list(() => tokens.label());
        this.strategies = tokens.list(() => tokens.list(() => tokens.label()));
        this.comment = tokens.label();
        this.counts = this.strategies.map(it => it.length);
        this.profiles = this.counts.reduce((product, count) => product * count, 1);
        this.lines = new Uint32Array(this.profiles + 1);
        this.lines[0] = tokens.at + 2;
        for (let i = 1; i <= this.profiles; i++)
            this.lines[i] = bytes.indexOf(LINE_FEED, this.lines[i - 1]) + 1;
    }

    playerName(player) {
        return shown(this.players[player - 1]) || `player ${player}`;
    }

    // The place of a profile, of the numbers of strategies from 0.
    placeOf(strategies) {
        return strategies.reduceRight((place, strategy, i) => place * this.counts[i] + strategy, 0);
    }

    // The numbers of strategies of the profile at a place.
    profileAt(place) {
        return this.counts.map(count => {
            const strategy = place % count;
            place = Math.floor(place / count);
            return strategy;
        });
    }

    payoffs(place) {
        if (this.players.length === 0) return [];
        const line = this.bytes.subarray(this.lines[place], this.lines[place + 1] - 1);
        return new TextDecoder().decode(line).split(" ");
    }
}
