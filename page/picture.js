"use strict";
// Draws a laid out tree as SVG. The colours and sizes are those of page.css; the picture that is saved has them in its
// own attributes, in the colours for light paper.

// There are so many colours of players; page.css has them.
const COLOURS = 7;
// The height of the legend, and the most width that its entries take.
const LEGEND = 30, MOST_LEGEND = 640;

const colourOf = player => player === null ? "plain" : player === 0 ? "chance" : `player-${(player - 1) % COLOURS + 1}`;
const rounded = number => +number.toFixed(1);

// A line of words at a place.
function drawWords({ line, x, y, anchor }) {
    const text = svgEl("text", { x: rounded(x), y: rounded(y), "text-anchor": anchor });
    for (const it of line.pieces)
        text.append(svgEl("tspan", { dx: it.dx || null, class: `${it.kind} ${colourOf(it.player)}` }, it.text));
    if (line.isCut) text.prepend(svgEl("title", {}, line.whole));
    return text;
}

// The mark of a node: a square for chance, a disc for a player, a dot at the end, and a triangle where more is closed.
function drawMark(item, tree, down) {
    const { x, y, node } = item, set = item.more > 0 ? null : tree.setOf(node);
    if (item.more > 0) return svgEl("circle", { cx: x, cy: y, r: 4, class: "mark more" });
    if (item.closed) {
        const corners = down ? [[-9, -5], [9, -5], [0, 9]] : [[-5, -9], [-5, 9], [9, 0]];
        const points = corners.map(([dx, dy]) => `${x + dx},${y + dy}`).join(" ");
        return svgEl("polygon", { points, class: `mark closed ${colourOf(set.player)}` });
    }
    if (!set) return svgEl("circle", { cx: x, cy: y, r: 3, class: "mark end" });
    return drawPlayer(set.player, x, y, 6);
}

// The mark of a player, or of chance.
function drawPlayer(player, x, y, r) {
    const side = 2 * r - 1, square = { x: x - side / 2, y: y - side / 2, width: side, height: side };
    return player === 0 ? svgEl("rect", { ...square, class: "mark open chance" })
        : svgEl("circle", { cx: x, cy: y, r, class: `mark ${colourOf(player)}` });
}

// What leads to a node, and what it pays, in words.
function wayInWords(tree, node) {
    const { label, chance } = tree.actionTo(node);
    return `${shown(label) || "unnamed action"}${chance === null ? "" : `, probability ${chance}`}: `;
}

function paidInWords(tree, node) {
    const pays = tree.paysAt(node)?.slice(0, MOST_PAYS) ?? [], outcome = tree.outcomeOf(node);
    if (pays.length === 0) return "";
    const name = outcome?.name ? ` (${shown(outcome.name)})` : "";
    return `pays ${pays.map((it, i) => `${tree.playerName(i + 1)} ${it}`).join(", ")}${name}`;
}

// A node in words, for those who do not see the picture.
function inWords(item, tree) {
    const { node } = item;
    if (item.more > 0) return `${grouped(item.more)} more of these`;
    const way = item.parent ? wayInWords(tree, node) : "", paid = paidInWords(tree, node);
    const set = tree.setOf(node), name = shown(tree.nameOf(node)), called = name === "" ? "" : `node ${name}; `;
    if (!set) return `${way}${called}the end${paid ? `, ${paid}` : ""}`;
    const label = `set ${set.number}${set.name === "" ? "" : `, ${shown(set.name)}`}`;
    const members = set.size > 1 ? `, one of ${grouped(set.size)} nodes` : "";
    const moves = `${tree.playerName(set.player)} moves at ${label}${members}`;
    return `${way}${called}${moves}; ${counted(set.actions.length, "action", "actions")}${paid ? `; ${paid}` : ""}`;
}

// An item that can be reached by keys and read aloud.
function drawItem(item, tree, words, down) {
    const { node, parent, more } = item, isInner = tree.end[node] > node + 1 && more === 0;
    const siblings = parent ? parent.children : [item];
    const known = list => more === 0 && list[node] >= 0 ? list[node] : null;
    const group = svgEl("g", {
        role: "treeitem", tabindex: -1, class: `node${isInner || more > 0 ? " folds" : ""}`,
        "data-node": node, "data-set": known(tree.set), "data-outcome": known(tree.outcome),
        "aria-level": tree.depth[node] + 1, "aria-posinset": siblings.indexOf(item) + 1,
        "aria-setsize": siblings.length, "aria-expanded": isInner ? `${!item.closed}` : null,
        "aria-selected": "false", "aria-label": inWords(item, tree),
    });
    const ring = svgEl("circle", { cx: item.x, cy: item.y, r: tree.set[node] < 0 ? 9 : 12, class: "ring" });
    group.append(ring, drawMark(item, tree, down), ...words.map(drawWords));
    return group;
}

// The players with their colours, in the order of payoffs, and chance.
function drawLegend(tree, left) {
    const group = svgEl("g", { "aria-hidden": "true" }), begin = left + MARGIN;
    const players = [...tree.players.keys()].slice(0, MOST_PAYS).map(it => it + 1);
    if (tree.setsOf(0).length > 0) players.push(0);
    let x = begin;
    for (const player of players) {
        const words = piece(tree.playerName(player), "legend", 150, player);
        const isCut = x > begin && x + words.width > left + MOST_LEGEND;
        const line = lineOf([isCut ? piece("…", "legend", 20) : words], 0);
        group.append(drawWords({ line, x: x + 16, y: MARGIN + 8.5, anchor: "start" }));
        if (isCut) break;
        group.append(drawPlayer(player, x + 5, MARGIN + 4, 5.5));
        x += 16 + words.width + 22;
    }
    return { group, width: x - left + MARGIN };
}

// The lines of a drawing: the dashed ones of sets under those to nodes.
function drawLines({ lines, dashes }, tree) {
    const group = svgEl("g", { "aria-hidden": "true" });
    for (const { set, path } of dashes)
        group.append(svgEl("path", { d: path, class: `dash ${colourOf(set.player)}`, "data-set": set.index }));
    for (const { item, points } of lines) {
        const { player } = tree.setOf(tree.parent[item.node]);
        const places = points.map(([x, y]) => `${rounded(x)},${rounded(y)}`).join(" ");
        group.append(svgEl("polyline", { points: places, class: `line ${colourOf(player)}` }));
    }
    return group;
}

function drawTree(tree, drawing) {
    const { left, top, down } = drawing, legend = drawLegend(tree, left);
    const width = Math.ceil(Math.max(drawing.width, legend.width)), height = Math.ceil(drawing.height + LEGEND);
    const words = Map.groupBy(drawing.words, it => it.item);
    const transform = `translate(0 ${rounded(LEGEND - top)})`;
    const body = svgEl("g", { transform, role: "none" }, drawLines(drawing, tree));
    for (const item of drawing.items) body.append(drawItem(item, tree, words.get(item) ?? [], down));
    return svgEl("svg", {
        viewBox: `${Math.floor(left)} 0 ${width} ${height}`, width, height, class: "picture", role: "tree",
        "aria-label": `The tree of ${shown(tree.title) || "a game without a title"}`,
    }, legend.group, body);
}

// The picture as a file -----------------------------------------------------------------------------------

const WORD_STYLES = ["fill", "font-family", "font-size", "font-weight", "font-style"];
const STYLES = [...WORD_STYLES, "stroke", "stroke-width", "stroke-dasharray", "stroke-linejoin"];
// What only the page needs.
const OF_PAGE = /^(role|tabindex|class|style|aria-.*|data-.*)$/;

// Gives a copy of an element what it looks like as attributes of its own, where it does not look as its parent. Words
// lose the edge that sets them off from lines: not all programs draw it under them.
function settle(copy, element, isRoot) {
    for (const { name } of [...copy.attributes]) if (OF_PAGE.test(name)) copy.removeAttribute(name);
    const style = getComputedStyle(element), above = getComputedStyle(element.parentElement);
    const isWords = ["text", "tspan"].includes(copy.localName);
    for (const name of isWords ? WORD_STYLES : STYLES) {
        const value = style.getPropertyValue(name);
        if (isRoot || value !== above.getPropertyValue(name)) copy.setAttribute(name, value);
    }
}

function svgFile(svg, tree) {
    const copy = svg.cloneNode(true), copies = [copy, ...copy.querySelectorAll("*")];
    const elements = [svg, ...svg.querySelectorAll("*")];
    svg.style.colorScheme = "light";
    copies.forEach((it, i) => settle(it, elements[i], i === 0));
    svg.style.colorScheme = "";
    elements.forEach((it, i) => it.classList.contains("ring") && copies[i].remove());
    const { x, y, width, height } = svg.viewBox.baseVal;
    setAll(copy, { width, height });
    copy.prepend(svgEl("title", {}, shown(tree.title)), svgEl("rect", { x, y, width, height, fill: "#ffffff" }));
    return new TextEncoder().encode(`${new XMLSerializer().serializeToString(copy)}\n`);
}
