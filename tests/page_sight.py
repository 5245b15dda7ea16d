"""What a reader needs of the page: that all can be done by keys, names for a screen reader, contrast, colours of
players that the colour-blind can tell apart, and views that fit narrow and wide screens, in light and dark.
tests/page_views.py runs it."""
import itertools
import math

from page_driver import EXAMPLES, judge

POKER, BY_HAND = EXAMPLES / "one-card-poker.efg", EXAMPLES / "one-card-poker-by-hand.efg"
THREE_DOORS = EXAMPLES / "refused" / "three-doors.efg"
TABS = ["Picture", "Strategic form", "Reduced form", "Canonical text", "Compare"]
# What has to have a name, by its part or its role.
NAMED = "button, input, select, textarea, summary, [role]:not([role=none], [role=status]), ul[aria-label]"
# What the tab key has to come by, in this order.
STOPS = [
    *("open", "examples", "new", "selten-horse.efg tree", "Close selten-horse.efg", "source", "tab-picture"),
    *("Smaller", "As large as fits", "Larger", "Direction of the picture", "Open all", "Close all", "Save SVG"),
]

# What has the focus, and whether that is to be seen.
FOCUS = """
    const it = document.activeElement, parts = [it, it.closest('label'), it.querySelector('.ring')].filter(Boolean);
    const isSeen = parts.map(part => getComputedStyle(part)).some(style =>
        style.outlineStyle !== 'none' && style.outlineWidth !== '0px' || style.stroke !== 'none');
    return it === document.body ? null : [it.id || it.getAttribute('aria-label') || it.textContent, isSeen];
"""
# The texts and lines whose contrast with what is behind them is too low: 4.5 to 1 for text, and 3 to 1 for large
# text and for lines and marks.
CONTRAST = """
    const part = n => n / 255 <= 0.04045 ? n / 255 / 12.92 : ((n / 255 + 0.055) / 1.055) ** 2.4;
    const read = words => {
        const [red, green, blue, opacity = 1] = words.match(/[\\d.]+/g).map(Number);
        return { light: 0.2126 * part(red) + 0.7152 * part(green) + 0.0722 * part(blue), opacity };
    };
    const behind = it => {
        for (; it; it = it.parentElement) {
            const colour = read(getComputedStyle(it).backgroundColor);
            if (colour.opacity > 0) return colour;
        }
        return read('255 255 255');
    };
    const low = [], seen = new Set();
    const check = (it, colour, least, what) => {
        const front = read(colour), [dark, light] = [front.light, behind(it).light].sort((a, b) => a - b);
        if (front.opacity === 0) return;
        seen.add(what);
        if (!((light + 0.05) / (dark + 0.05) >= least)) low.push([what, it.outerHTML.slice(0, 80), colour]);
    };
    for (const it of document.querySelectorAll('body *')) {
        const style = getComputedStyle(it), size = parseFloat(style.fontSize), isSvg = it instanceof SVGElement;
        if (!it.getClientRects().length || it.disabled) continue;
        if (['polyline', 'path'].includes(it.localName)) check(it, style.stroke, 3, 'line');
        if (it.matches('.mark')) check(it, style.stroke === 'none' ? style.fill : style.stroke, 3, 'mark');
        const hasText = [...it.childNodes].some(node => node.nodeType === 3 && node.data.trim());
        const isLarge = size >= 24 || size >= 18.6 && style.fontWeight >= 600;
        const colour = isSvg ? style.fill : style.color;
        if (hasText || it.localName === 'textarea') check(it, colour, isLarge ? 3 : 4.5, 'text');
    }
    return { low, seen: [...seen] };
"""
# The colours of seven players, each as red, green and blue.
COLOURS = """
    return [1, 2, 3, 4, 5, 6, 7].map(player => {
        const it = document.createElement('span');
        it.className = `player-${player}`;
        document.body.append(it);
        const { color } = getComputedStyle(it);
        it.remove();
        return color.match(/[\\d.]+/g).slice(0, 3).map(Number);
    });
"""
# How the three kinds of colour-blindness see a colour in linear light (Machado, Oliveira and Fernandes, 2009).
SIGHT = {
    "all colours": ((1, 0, 0), (0, 1, 0), (0, 0, 1)),
    "no red": ((0.152286, 1.052583, -0.204868), (0.114503, 0.786281, 0.099216), (-0.003882, -0.048116, 1.051998)),
    "no green": ((0.367322, 0.860646, -0.227968), (0.280085, 0.672501, 0.047413), (-0.011820, 0.042940, 0.968881)),
    "no blue": ((1.255528, -0.076749, -0.178779), (-0.078411, 0.930809, 0.147602), (0.004733, 0.691367, 0.303900)),
}
# Colours at this distance in CIE L*a*b* are told apart at a glance; 2.3 is the least that is noticed.
APART = 18


def reach_by_keys(view):
    """All of the page is reached by the tab key, and what has the focus is to be seen."""
    from selenium.webdriver.common.keys import Keys

    seen = []
    for _ in range(40):
        view.keys(Keys.TAB)
        focus = view.do(FOCUS)
        if focus is None or focus in seen:
            break
        seen.append(focus)
    names = [it[0] for it in seen]
    judge("what the tab key reaches", [it for it in names if it in STOPS] == STOPS, names)
    judge("the picture is its last stop", names[-1] == "First moves at set 1, first; 2 actions", names[-1])
    judge("the focus is to be seen", all(it[1] for it in seen), [it for it in seen if not it[1]])


def walk_by_keys(view):
    """In a picture, arrow keys go from node to node, and Enter closes and opens."""
    from selenium.webdriver.common.keys import Keys

    def focus(key):
        view.keys(key)
        return view.do(FOCUS)[0]

    def state():
        return len(view.all(".node")), view.do("return document.activeElement.ariaExpanded")

    view.do("document.querySelector('.node[tabindex=\"0\"]').focus()")
    judge("right to the first child", focus(Keys.ARROW_RIGHT).startswith("Across: Second moves at set 1, second"))
    view.keys(Keys.ENTER)
    judge("a subtree that is closed by a key", state() == (5, "false"), state())
    view.keys(Keys.ARROW_RIGHT)
    judge("and opened", state() == (9, "true"), state())
    end = focus(Keys.ARROW_DOWN)
    judge("down to an end", end == "across: the end, pays First 1, Second 1, Third 1 (straight on)", end)
    view.keys(Keys.END)
    parent = focus(Keys.ARROW_LEFT)
    judge("left to the parent", parent == "Down: Third moves at set 1, third, one of 2 nodes; 2 actions", parent)
    judge("to the root", focus(Keys.HOME) == "First moves at set 1, first; 2 actions")
    width = view.one(".picture").size["width"]
    view.keys("+")
    judge("larger by a key", view.one(".picture").size["width"] > width)


def choose_by_keys(view):
    """Tabs, examples and files are chosen by keys, which keep the focus."""
    from selenium.webdriver.common.keys import Keys

    view.do("document.getElementById('tab-picture').focus()")
    for words in [*TABS[1:], TABS[0]]:
        view.keys(Keys.ARROW_RIGHT)
        view.calm()
        judge(f"{words} by an arrow key", view.do("return document.activeElement.textContent") == words)
    view.do("document.getElementById('examples').focus()")
    examples = (
        (Keys.ARROW_DOWN, "stag-hunt.nfg"),
        (Keys.ARROW_DOWN, "ultimatum.efg"),
        (Keys.ARROW_UP, "stag-hunt.nfg"),
    )
    for key, name in examples:
        view.keys(key)
        view.until(lambda: view.text("#name") == name)
        view.calm()
        judge(f"{name} by an arrow key", view.do("return document.activeElement.id") == "examples")
    view.do("document.querySelector('#files .name').focus()")
    view.keys(Keys.ENTER)
    view.calm()
    judge("a file by a key", view.text("#name") == "selten-horse.efg", view.text("#name"))
    judge("it keeps the focus", view.do(FOCUS)[0].startswith("selten-horse.efg"), view.do(FOCUS))


def name_all(view):
    """Each control, and each part that has a role, has a name for a screen reader."""
    view.open(THREE_DOORS, POKER)
    judge("names beside a refused file", unnamed(view) == [], unnamed(view))
    view.press(f"{POKER.name} tree", "#files")
    for words in TABS:
        view.tab(words)
        judge(f"names in {words}", unnamed(view) == [], unnamed(view))


def unnamed(view):
    def found():
        shown = [it for it in view.all(NAMED) if it.is_displayed()]
        return [it.get_attribute("outerHTML") for it in shown if not it.accessible_name]

    return view.steadily(found)


def read_aloud(view):
    """The page has the parts that a screen reader goes by, and a picture says in words what it shows."""
    view.open(POKER)
    roles = [view.one(it).aria_role for it in (".picture", ".node", "#tabs", "#view", "#verdict", "header", "main")]
    judge("roles", roles == ["tree", "treeitem", "tablist", "tabpanel", "status", "banner", "main"], roles)
    node = view.one('.node[data-node="7"]').accessible_name
    judge("a node in words", node == "Raise: Bob moves at set 1, after a raise, one of 2 nodes; 2 actions", node)
    places = view.do("return [...document.querySelectorAll('.node')].map(it => [it.ariaLevel, it.ariaPosInSet])")
    judge("places in the tree", places[:4] == [["1", "1"], ["2", "1"], ["3", "1"], ["4", "1"]], places)
    headings = view.do("return [...document.querySelectorAll('h1, h2, h3, h4')].map(it => it.localName)")
    judge("headings", headings == ["h1", "h2", "h3"], headings)
    judge("the language", view.do("return document.documentElement.lang") == "en")
    view.tab("Strategic form")
    heads = view.do("return [...document.querySelectorAll('table.game th')].map(it => it.scope)")
    judge("heads of a table", set(heads) == {"row", "col", "rowgroup", "colgroup"}, heads)


def tell_colours_apart(view):
    """The colours of players differ for each kind of sight, in light and dark."""
    for scheme in "light", "dark":
        view.set_scheme(scheme)
        colours = view.do(COLOURS)
        for sight, matrix in SIGHT.items():
            seen = [lab(colour, matrix) for colour in colours]
            pairs = itertools.combinations(range(len(seen)), 2)
            least, *pair = min((math.dist(seen[i], seen[j]), i + 1, j + 1) for i, j in pairs)
            judge(f"colours of players in {scheme} for {sight}", least >= APART, least, pair)
    view.set_scheme("light")


def lab(colour, matrix):
    """Gives the place of a colour in CIE L*a*b* as a kind of sight has it."""
    linear = [
        it / 12.92 if it <= 0.04045 else ((it + 0.055) / 1.055) ** 2.4 for it in (part / 255 for part in colour)
    ]
    red, green, blue = (min(1, max(0, sum(a * b for a, b in zip(row, linear)))) for row in matrix)
    sums = (
        (0.4124 * red + 0.3576 * green + 0.1805 * blue) / 0.9505,
        0.2126 * red + 0.7152 * green + 0.0722 * blue,
        (0.0193 * red + 0.1192 * green + 0.9505 * blue) / 1.089,
    )
    x, y, z = (it ** (1 / 3) if it > 0.008856 else 7.787 * it + 16 / 116 for it in sums)
    return 116 * y - 16, 500 * (x - y), 200 * (y - z)


def fit(view):
    """In light and dark, and on narrow and wide screens, all can be read, and nothing is wider than the page."""
    for scheme, width in itertools.product(["light", "dark"], [1400, 400]):
        view.set_scheme(scheme)
        view.set_size(width)
        view.start()
        view.open(THREE_DOORS)
        look(view, f"what is refused, {scheme}, {width}", {"text"})
        view.open(BY_HAND, POKER)
        for words in TABS:
            view.tab(words)
            if words == "Compare":
                view.choose("#other", "selten-horse.efg" if scheme == "dark" else POKER.name)
            has_picture = words in ("Picture", "Compare")
            look(view, f"{words}, {scheme}, {width}", {"text", "line", "mark"} if has_picture else {"text"})
        view.open(view.made("seven.efg", seven_players()))
        for words in "Picture", "Strategic form":
            view.tab(words)
            look(view, f"{words} of seven players, {scheme}, {width}", {"text"})
    view.set_size(1400)
    view.set_scheme("light")


def seven_players():
    """Gives a tree in which each of seven players has a move."""
    numbers = range(1, 8)
    players = " ".join(f'"P{it}"' for it in numbers)
    moves = "".join(f'p "" {it} 1 "" {{ "stop" "go" }} 0 t "" {it} "" {{ 1 2 3 4 5 6 7 }} ' for it in numbers)
    return f'EFG 2 R "seven" {{ {players} }} {moves} t "" 0'


def look(view, name, wanted):
    seen = view.do(CONTRAST)
    judge(f"contrast of {name}", seen["low"] == [], seen["low"][:4])
    judge(f"contrast is looked at in {name}", wanted <= set(seen["seen"]), seen["seen"])
    wide = view.do("return [document.documentElement.scrollWidth, innerWidth]")
    judge(f"width of {name}", wide[0] <= wide[1], wide)


PARTS = [reach_by_keys, walk_by_keys, choose_by_keys, name_all, read_aloud, tell_colours_apart, fit]
