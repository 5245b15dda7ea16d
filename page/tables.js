"use strict";
// Shows a table: the first player chooses the row, the second the column. For three players there is a table
// for each strategy of the third; for more, one for the strategies of the others that are chosen from menus. Of
// a large table, a part is in sight at a time.

const MOST_ROWS = 50, MOST_COLUMNS = 24, MOST_GRIDS = 12;
// So many payoffs of a profile are shown, and so many letters of a strategy.
const MOST_PAYOFFS = 60, MOST_LETTERS = 60;
// The actions of a strategy are written under it if they are no more.
const MOST_ACTIONS = 4;
// A player with more strategies than these has no menu, but a field for the number of one.
const MOST_CHOICES = 200;

function strategyOf(table, player, strategy) {
    const label = table.strategies[player - 1][strategy];
    return shown(label.length > MOST_LETTERS ? `${label.slice(0, MOST_LETTERS)}…` : label) || "(no label)";
}

// The actions that a strategy of a tree's table has, such as "Raise, *" for "1-*"; null for other tables, and
// where they are too many.
function actionsOf(table, player, strategy) {
    const label = table.strategies[player - 1][strategy], sets = table.tree?.setsOf(player) ?? [];
    if (sets.length === 0 || label.length > MOST_LETTERS) return null;
    const action = (digits, i) => digits === "*" ? "*" : shown(sets[i].actions[Number(digits) - 1].label) || digits;
    return label.split("-").map(action);
}

// The head of a row or a column: the strategy, and under it its actions.
function strategyHead(table, player, strategy, scope) {
    const actions = actionsOf(table, player, strategy), words = actions?.join(", ");
    const name = el("span", {}, strategyOf(table, player, strategy));
    const head = el("th", { scope, class: `player-${player}`, title: words }, name);
    if (actions && actions.length <= MOST_ACTIONS) head.append(el("small", {}, words));
    return head;
}

// The payoffs of a profile, each in its player's colour.
function payoffCell(table, profile, marked) {
    const place = table.placeOf(profile), payoffs = table.payoffs(place);
    if (payoffs.length > MOST_PAYOFFS) payoffs.splice(MOST_PAYOFFS, Infinity, "…");
    const cell = el("td", { class: marked === place ? "marked" : null });
    payoffs.forEach((payoff, i) => cell.append(i > 0 ? " " : "", el("span", { class: colourOf(i + 1) }, payoff)));
    return cell;
}

// One grid: a part of the strategies of the first two players, and fixed ones of the others.
class Grid {
    constructor(table, others, { row, column }, marked) {
        Object.assign(this, { table, others, marked, row, column });
        this.players = table.players.length;
        this.lastRow = Math.min(this.players > 0 ? table.counts[0] : 1, row + MOST_ROWS);
        this.lastColumn = Math.min(this.players > 1 ? table.counts[1] : 1, column + MOST_COLUMNS);
        const caption = this.caption(), label = caption ? caption.textContent : "Payoffs";
        const element = el("table", { class: "game" }, caption, this.head(), this.body());
        this.element = el("div", { class: "scroll", tabindex: 0, role: "region", "aria-label": label }, element);
    }

    // What the others choose; a player with one strategy is left out where there are many.
    caption() {
        const { table, others } = this, parts = [];
        others.forEach((strategy, i) => {
            const player = i + 3, actions = actionsOf(table, player, strategy)?.join(", ");
            if (others.length > 6 && table.counts[player - 1] === 1) return;
            const words = `${table.playerName(player)}: ${strategyOf(table, player, strategy)}`;
            const note = actions ? [" ", el("small", { title: actions }, actions)] : [];
            parts.push(parts.length > 0 ? ", " : "", el("span", { class: colourOf(player) }, words, ...note));
        });
        return parts.length > 0 ? el("caption", {}, ...parts) : null;
    }

    // The name of the second player, above that player's strategies.
    head() {
        if (this.players < 2) return null;
        const { table, column, lastColumn } = this, corner = () => el("td", { class: "corner" });
        const span = { scope: "colgroup", colspan: lastColumn - column, class: "player player-2" };
        const labels = el("tr", {}, corner(), corner());
        for (let c = column; c < lastColumn; c++) labels.append(strategyHead(table, 2, c, "col"));
        return el("thead", {}, el("tr", {}, corner(), corner(), el("th", span, table.playerName(2))), labels);
    }

    // The name of the first player, beside that player's strategies, and the payoffs.
    body() {
        const { table, row, lastRow, column, lastColumn, others, players } = this, body = el("tbody");
        const span = { scope: "rowgroup", rowspan: lastRow - row, class: "player player-1" };
        for (let r = row; r < lastRow; r++) {
            const line = el("tr");
            if (r === row && players > 0) line.append(el("th", span, el("span", {}, table.playerName(1))));
            if (players > 0) line.append(strategyHead(table, 1, r, "row"));
            for (let c = column; c < lastColumn; c++)
                line.append(payoffCell(table, [r, c, ...others].slice(0, players), this.marked));
            body.append(line);
        }
        return body;
    }
}

// A table, with the menus and buttons that choose what is in sight.
class TableViewer {
    // `marked` is the place of a profile to begin with.
    constructor(table, { marked = null } = {}) {
        const at = table.profileAt(marked ?? 0), begin = (i, step) => Math.floor((at[i] ?? 0) / step) * step;
        Object.assign(this, { table, marked, others: at.slice(2) });
        this.row = begin(0, MOST_ROWS);
        this.column = begin(1, MOST_COLUMNS);
        this.first = begin(2, MOST_GRIDS);
        this.grids = el("div", { class: "grids" });
        this.element = el("div", { class: "tables" }, this.controls(), this.grids);
        this.draw();
    }

    controls() {
        const { counts, players } = this.table, bar = el("div", { class: "tools", role: "group" });
        bar.setAttribute("aria-label", "What is in sight");
        if (players.length > 3)
            this.others.forEach((chosen, i) => counts[i + 2] > 1 && bar.append(this.chooser(i, chosen)));
        if (counts[0] > MOST_ROWS) bar.append(this.pager("row", counts[0], MOST_ROWS, "rows"));
        if (counts[1] > MOST_COLUMNS) bar.append(this.pager("column", counts[1], MOST_COLUMNS, "columns"));
        if (players.length === 3 && counts[2] > MOST_GRIDS)
            bar.append(this.pager("first", counts[2], MOST_GRIDS, "tables"));
        return bar.childElementCount > 0 ? bar : null;
    }

    // Chooses a strategy of one of the others.
    chooser(i, chosen) {
        const { table } = this, player = i + 3, count = table.counts[player - 1];
        const take = strategy => {
            this.others[i] = strategy;
            this.draw();
        };
        const name = el("span", { class: colourOf(player) }, `${table.playerName(player)} `);
        if (count > MOST_CHOICES) {
            const box = el("input", { type: "number", min: 1, max: count, value: chosen + 1 });
            const inside = () => Math.min(count, Math.max(1, Math.round(Number(box.value)) || 1));
            box.addEventListener("change", () => {
                box.value = inside();
                take(box.value - 1);
            });
            return el("label", {}, name, box);
        }
        const menu = el("select", { change: () => take(menu.selectedIndex) });
        for (let s = 0; s < count; s++)
            menu.append(el("option", { selected: s === chosen }, strategyOf(table, player, s)));
        return el("label", {}, name, menu);
    }

    // Goes to the part before or after the one in sight.
    pager(name, count, step, what) {
        const words = el("span", { role: "status" });
        const go = by => {
            this[name] = Math.min(Math.max(0, this[name] + by), Math.floor((count - 1) / step) * step);
            const last = Math.min(count, this[name] + step);
            words.textContent = ` ${what} ${grouped(this[name] + 1)} to ${grouped(last)} of ${grouped(count)} `;
            if (by !== 0) this.draw();
        };
        go(0);
        const button = (label, sign, by) =>
            el("button", { type: "button", "aria-label": `${label} ${what}`, click: () => go(by) }, sign);
        return el("span", { class: "pager" }, button("Earlier", "◀", -step), words, button("Later", "▶", step));
    }

    draw() {
        const { table, marked, first, others } = this, isThree = table.players.length === 3;
        const thirds = isThree ? Math.min(table.counts[2], first + MOST_GRIDS) - first : 1;
        const choice = i => isThree ? [first + i] : others;
        const grids = Array.from({ length: thirds }, (_, i) => new Grid(table, choice(i), this, marked));
        this.grids.replaceChildren(...grids.map(it => it.element));
    }
}
