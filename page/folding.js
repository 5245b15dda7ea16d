"use strict";
// Which nodes of a tree are shown. A node can be closed, and then what is below it is not shown; of a node with
// very many children only the first ones are shown, and then how many more there are.

// A tree of up to this many nodes is shown whole at first.
const MOST_OPEN = 300;
// Of a larger one, and of a large part that is opened, about so many are.
const FIRST_OPEN = 120;
// No more are ever shown: a picture of more would be no help, and slow.
const MOST_ITEMS = 1500;
const MOST_CHILDREN = 40;

class Folding {
    constructor(tree) {
        this.tree = tree;
        this.closed = new Set();
        this.wider = new Map(); // how many children are shown, where that is not `most`
        this.most = tree.count > MOST_OPEN ? MOST_CHILDREN : Infinity;
        if (tree.count > MOST_OPEN) this.openFrom(0, FIRST_OPEN);
    }

    isInner(node) {
        return this.tree.end[node] > node + 1;
    }

    // The children that are shown.
    childrenOf(node) {
        const { end } = this.tree, children = [], most = this.wider.get(node) ?? this.most;
        for (let child = node + 1; child < end[node] && children.length < most; child = end[child])
            children.push(child);
        return children;
    }

    // Opens a node and, level by level, what is below it, until about so many nodes are shown.
    openFrom(node, budget) {
        this.closed.delete(node);
        let waiting = [node];
        while (waiting.length > 0) {
            const next = [];
            for (const at of waiting) {
                const children = this.childrenOf(at);
                if (at !== node && children.length > budget) this.closed.add(at);
                else {
                    this.closed.delete(at);
                    budget -= children.length;
                    next.push(...children.filter(child => this.isInner(child)));
                }
            }
            waiting = next;
        }
    }

    open(node) {
        const { end } = this.tree;
        return this.tried(() => {
            if (end[node] - node > MOST_OPEN) this.openFrom(node, FIRST_OPEN);
            else this.closed.delete(node);
        });
    }

    close(node) {
        this.closed.add(node);
    }

    // Shows further children of a node.
    showMore(node) {
        const most = (this.wider.get(node) ?? this.most) + MOST_CHILDREN;
        return this.tried(() => this.wider.set(node, most));
    }

    // Opens more, but not if more than MOST_ITEMS would be shown then; tells whether it did.
    tried(change) {
        const { closed, wider } = this;
        this.closed = new Set(closed);
        this.wider = new Map(wider);
        change();
        if (this.items().length <= MOST_ITEMS) return true;
        Object.assign(this, { closed, wider });
        return false;
    }

    // Opens what leads to a node.
    reveal(node) {
        return this.tried(() => this.openTo(node));
    }

    openTo(node) {
        const { parent, end } = this.tree;
        for (let child = node, at = parent[node]; at >= 0; child = at, at = parent[at]) {
            this.closed.delete(at);
            let place = 1;
            for (let sibling = at + 1; sibling < child; sibling = end[sibling]) place++;
            if (place > (this.wider.get(at) ?? this.most)) this.wider.set(at, place);
        }
    }

    openAll() {
        this.closed.clear();
        this.wider.clear();
        if (this.tree.count > MOST_ITEMS) this.openFrom(0, MOST_ITEMS);
        else this.most = Infinity;
    }

    closeAll() {
        for (const child of this.childrenOf(0)) if (this.isInner(child)) this.closed.add(child);
    }

    // What is shown, in prefix order. An item is a node, or stands for the further children of one (`more`).
    items() {
        const { end, parent } = this.tree, items = [], at = new Map(), left = new Map();
        for (let node = 0; node < this.tree.count;) {
            const above = node === 0 ? null : at.get(parent[node]);
            const item = { node, parent: above, children: [], closed: false, more: 0, below: end[node] - node - 1 };
            if (above) above.children.push(item);
            items.push(item);
            if (above && left.get(above) === 0) {
                item.more = this.countFrom(node, end[above.node]);
                node = end[above.node];
                continue;
            }
            if (above) left.set(above, left.get(above) - 1);
            at.set(node, item);
            left.set(item, this.wider.get(node) ?? this.most);
            item.closed = this.closed.has(node);
            node = item.closed ? end[node] : node + 1;
        }
        return items;
    }

    countFrom(node, limit) {
        let count = 0;
        for (; node < limit; node = this.tree.end[node]) count++;
        return count;
    }
}
