#!/usr/bin/env python3
"""Tests what the page of page/out shows, by clicks, keys, drops, file inputs and the clipboard in headless
Chromium: each view against the program, ./gamefile, each message, and what is saved.
page_use.py has what a user does with it, and page_sight.py what a reader needs. tests/page runs this. The last
line is 'page_views: N passed, M failed'.
"""
import itertools
import math
import re
import sys
import tempfile
import time
import xml.etree.ElementTree as xml
from pathlib import Path

sys.dont_write_bytecode = True

import browser
import page_sight
import page_use
from page_driver import CORPUS, EXAMPLES, PAGE, View, counts, judge, program

BY_HAND = EXAMPLES / "one-card-poker-by-hand.efg"
SVG = "{http://www.w3.org/2000/svg}"
MARKUP = '<img src=x onerror="document.title=1">'


# Views --------------------------------------------------------------------------------------------------


def show_examples(view):
    """Each example, from the menu: its picture, its tables, its text and its hashes."""
    for file in sorted(EXAMPLES.glob("*.?fg")):
        view.choose("#examples", file.name)
        canonical = program("canon", file)
        is_tree = file.suffix == ".efg"
        judge(f"verdict of {file.name}", view.text("#verdict").startswith("Valid: "), view.text("#verdict"))
        judge(f"text of {file.name}", view.one("#source").get_attribute("value") == file.read_text())
        if is_tree:
            view.tab("Picture")
            nodes = re.findall(rb"^[cpt] ", canonical, re.MULTILINE)
            judge(f"nodes of {file.name}", len(view.all(".picture .node")) == len(nodes), len(nodes))
            judge(f"words of {file.name} do not overlap", view.do(OVERLAPS) == [], view.do(OVERLAPS))
            forms = [("Strategic form", ["table"], "-table"), ("Reduced form", ["table", "--reduced"], "-reduced")]
        else:
            forms = [("Table", ["canon"], "")]
        for words, command, ending in forms:
            view.tab(words)
            written = program(*command, file)
            lines = sorted(written.decode().split("\n\n", 1)[1].splitlines())
            judge(f"{words} of {file.name}", sorted(view.texts("table.game tbody td")) == lines, lines)
            view.press("Save .nfg", "#view")
            judge(f"{words} of {file.name}, saved", view.saved(f"{file.stem}{ending}.nfg") == written)
        view.tab("Canonical text")
        judge(f"canonical text of {file.name}", view.text("pre.text").encode() == canonical)
        hashes = [program("hash", *more, file).decode()[:64] for more in ([], ["--no-names"])]
        judge(f"hashes of {file.name}", view.texts(".hashes code") == hashes, hashes)
        view.press(f"Save {file.suffix}", "#view")
        judge(
            f"canonical text of {file.name}, saved", view.saved(f"{file.stem}-canonical{file.suffix}") == canonical
        )


# The words of a picture that other words or the mark of a node overlap.
OVERLAPS = """
    const box = it => {
        const { x, y, width, height } = it.getBBox();
        return { left: x + 1, right: x + width - 1, top: y + 3, bottom: y + height - 3, text: it.textContent };
    };
    const all = selector => [...document.querySelectorAll(selector)].map(box);
    const words = all('.picture .node text'), marks = all('.picture .mark');
    const meet = (a, b) => a.left < b.right && b.left < a.right && a.top < b.bottom && b.top < a.bottom;
    const met = (a, i) => [...words.slice(i + 1), ...marks].filter(b => meet(a, b));
    return words.flatMap((a, i) => met(a, i).map(b => `${a.text} / ${b.text}`));
"""
# From which height to which the dashed lines of a player's sets run, and where.
DASHES = """
    const boxes = [...document.querySelectorAll('.dash.player-2')].map(it => it.getBBox());
    return boxes.map(it => [it.x, it.y, it.y + it.height]);
"""
# What the title of each text has that is cut.
CUT = """
    const cut = [...document.querySelectorAll('.node text')].filter(it => it.textContent.includes('…'));
    return cut.map(it => it.querySelector('title')?.textContent ?? '…');
"""
SHAPES = [
    "kuhn-poker",
    "monty-hall",
    "beer-and-quiche",
    "chain-store-in-three-towns",
    "centipede-of-six-moves",
    "bayesian-cournot",
]


def show_pictures(view):
    """Trees of other shapes: no words overlap, and sets that interleave have lanes of their own."""
    for name in SHAPES:
        view.open(CORPUS / f"{name}.efg")
        view.tab("Picture")
        judge(f"words of {name} do not overlap", view.do(OVERLAPS) == [], view.do(OVERLAPS))
    view.open(CORPUS / "numbers-at-their-bounds.efg")
    cut = view.do(CUT)
    judge("words that are cut have all in a title", len(cut) > 3 and not any("…" in it for it in cut), cut)
    players = " ".join(f'"P{it}"' for it in range(60))
    view.open(view.made("sixty.efg", f'EFG 2 R "" {{ {players} }} t "" 1 "" {{ {" ".join(["100"] * 60)} }}'))
    judge("payoffs of many players are cut", view.text(".node text").endswith("…"), view.text(".node text"))
    width = view.do("return document.querySelector('.picture').viewBox.baseVal.width")
    judge("a picture of many players", width < 900, width)
    view.press("kuhn-poker.efg tree", "#files")
    dashes = view.do(DASHES)
    crossing = [(a, b) for a, b in itertools.combinations(dashes, 2) if a[1] < b[2] and b[1] < a[2]]
    judge("sets that interleave", len(crossing) > 3, dashes)
    judge("lanes of sets that interleave", all(a[0] != b[0] for a, b in crossing), dashes)
    for way in "Down", "From left to right":
        view.choose(".viewer select", way)
        judge(f"a picture that runs {way.lower()}", len(view.all(".node")) == 55 and view.all(".node .pays") != [])
    view.one(".viewer input").click()
    judge("a picture without names", view.all(".picture .set") == [] and view.all(".picture .who") != [])


def save_picture(view):
    """The picture that is saved is SVG with all words, in colours of its own, and without scripts or styles."""
    view.open(BY_HAND)
    view.tab("Picture")
    words = [it for it in view.texts(".picture text") if it]
    view.press("Save SVG", "#view")
    data = view.saved(f"{BY_HAND.stem}.svg")
    root = xml.fromstring(data)
    found = ["".join(it.itertext()) for it in root.iter(f"{SVG}text")]
    judge("words of the saved picture", sorted(filter(None, found)) == sorted(words), found)
    judge("words of the saved picture have no edge", not any(it.get("stroke") for it in root.iter(f"{SVG}tspan")))
    parts = {it.tag.removeprefix(SVG) for it in root.iter()}
    known = {"svg", "title", "g", "rect", "circle", "path", "polyline", "polygon", "text", "tspan"}
    judge("parts of the saved picture", parts <= known, parts)
    fills = {it.get("fill") for it in root.iter(f"{SVG}circle")}
    judge("colours of the saved picture", len(fills) >= 3 and None not in fills, fills)
    judge("no classes in the saved picture", not re.search(rb"class=|aria-|data-|var\(", data))


def table(name, counts):
    """Gives a strategic file with these numbers of strategies. A payoff says of which profile and player it is."""
    profiles = range(math.prod(counts))
    rows = "\n".join(" ".join(str(100 * it + who) for who in range(len(counts))) for it in profiles)
    players = " ".join(f'"P{it}"' for it in range(len(counts)))
    return f'NFG 1 R "{name}" {{ {players} }} {{ {" ".join(map(str, counts))} }}\n{rows}\n'


def open_table(view, name, counts):
    """Opens a strategic file, and gives what stands in its cells."""
    view.open(view.made(f"{name}.nfg", table(name, counts)))
    view.tab("Table")
    return view.texts("table.game tbody td")


def show_tables(view):
    """Tables of one, three, four and no players."""
    judge("a table of one player", open_table(view, "one", [3]) == ["0", "100", "200"])
    judge("a table without players", open_table(view, "none", []) == [""])
    cells = open_table(view, "three", [2, 2, 3])
    judge("tables of three players", len(view.all("table.game")) == 3 and len(cells) == 12, cells)
    judge("the first of them", [it.split()[0] for it in cells[:4]] == ["0", "200", "100", "300"], cells)
    cells = open_table(view, "four", [2, 2, 2, 2])
    judge("a table of four players", [it.split()[0] for it in cells] == ["0", "200", "100", "300"], cells)
    view.choose("#view .tools label:last-child select", "2")
    cells = view.texts("table.game tbody td")
    judge("a choice of the fourth player", [it.split()[0] for it in cells] == ["800", "1000", "900", "1100"], cells)


def show_large_table(view):
    """Of a large table, a part is in sight."""
    cells = open_table(view, "large", [120, 60])
    judge("a part of a large table", (len(cells), cells[1]) == (50 * 24, "12000 12001"), cells[:2])
    view.press("Later rows", "#view")
    view.press("Later rows", "#view")
    heads = view.texts("table.game tbody th[scope=row] span")
    judge("its last rows", (heads[0], heads[-1], len(heads)) == ("101", "120", 20), heads)
    view.press("Later columns", "#view")
    heads = view.texts("table.game thead th[scope=col] span")
    judge("later columns", (heads[0], len(heads)) == ("25", 24), heads)
    view.press("Earlier rows", "#view")
    judge("earlier rows", view.text("table.game tbody th[scope=row] span") == "51")


def show_form(view):
    """A form of a tree says which actions its strategies have, and can be opened as a file."""
    view.open(EXAMPLES / "centipede.efg")
    view.tab("Reduced form")
    actions = view.texts("table.game tbody th small")
    judge("actions of strategies", actions == ["Take, *", "Pass, Take", "Pass, Pass"], actions)
    keys = view.texts(".keys li")
    judge("what the strategies are", keys[0] == "Ann, first: 1 Take, 2 Pass" and len(keys) == 3, keys)
    view.press("Open as a file", "#view")
    judge("a form as a file of its own", view.text("#name") == "centipede-reduced.nfg")
    judge("it is valid", view.text("#verdict").startswith("Valid: a strategic file"), view.text("#verdict"))


# What is wrong ------------------------------------------------------------------------------------------


# How far the marked place is inside its box, on each side.
SIGHT = """
    const mark = document.querySelector('#behind mark').getBoundingClientRect();
    const box = document.querySelector('.editor').getBoundingClientRect();
    return [mark.left - box.left, mark.top - box.top, box.bottom - mark.bottom, box.right - mark.right];
"""
CHOSEN = "const box = document.activeElement; return box.value.slice(box.selectionStart, box.selectionEnd)"


def show_refusals(view):
    """What is refused: the code, the sentence and the hint, and the place in the text."""
    three_doors = EXAMPLES / "refused" / "three-doors.efg"
    files = [three_doors, *sorted(CORPUS.glob("tree-with-*.efg"))[::9], *sorted(CORPUS.glob("payoff*.nfg"))[::5]]
    refused = [it for it in files if not it.with_suffix(".out").exists()]
    judge("files that are refused", len(refused) > 8, len(refused))
    # Without that call, the page has the sentence and the hint alone.
    is_whole = b"gamefile_c_explain" in (PAGE / "gamefile.wasm").read_bytes()
    for file in refused:
        view.open(file)
        code, start, end = re.match(r"(E\d+) at (\d+)\.\.(\d+)", program("check", file).decode()).groups()
        judge(f"verdict of {file.name}", view.text("#verdict").startswith(f"Refused with {code}: "))
        shown, told = view.text("#explanation"), program("check", "--explain", file).decode()
        told = told.replace(f"{file}:", f"{file.name}:", 1)
        told_alone = f"{file.name}: {code} at {start}..{end}: "
        judge(
            f"explanation of {file.name}", shown == told if is_whole else shown.startswith(told_alone), shown, told
        )
        show_place(view, file, file.read_bytes()[int(start) : int(end)])


def show_place(view, file, token):
    """The refused token is marked, in sight, and can be chosen."""
    place = token.decode(errors="replace").replace("\r\n", "\n")
    judge(f"place in {file.name}", view.text("#behind mark") == place, view.text("#behind mark"), place)
    sight = view.do(SIGHT)
    judge(f"place in {file.name}, in sight", min(sight[: 3 if len(place) > 40 else 4]) > -1, sight)
    view.press("Show the place in the text", "#wrong")
    judge(f"place in {file.name}, chosen", view.do(CHOSEN) == place, view.do(CHOSEN))


# Chooses a text in the box.
CHOOSE = """
    const box = document.getElementById('source'), at = box.value.indexOf(arguments[0]);
    box.focus();
    box.setSelectionRange(at, at + arguments[0].length);
"""


def edit(view):
    """What is typed is judged: a file is mended, and line ends stay as they are."""
    view.open(EXAMPLES / "refused" / "three-doors.efg")
    for _ in range(3):
        view.do(CHOOSE, "0.333")
        view.keys("1/3")
    view.until(lambda: view.text("#verdict").startswith("Valid"))
    view.calm()
    judge("a file that is mended", view.texts("#files small") == ["tree"], view.texts("#files small"))
    view.tab("Canonical text")
    mended = '"left" 1/3 "middle" 1/3 "right" 1/3'
    judge("canonical text of what was typed", mended in view.text("pre.text"), view.text("pre.text"))
    view.open(view.made("crlf.nfg", 'NFG 1 R "two\r\nlines" { "A" }\r\n{ 1 }\r\n7\r\n'))
    view.do(CHOOSE, "7")
    view.keys("8")
    view.tab("Canonical text")
    view.until(lambda: view.text("pre.text") is not None and view.text("pre.text").endswith("\n8\n"))
    view.press("Save .nfg", "#view")
    judge("line ends of a label", b'"two\r\nlines"' in view.saved("crlf-canonical.nfg"))


def say(view):
    """Each message that is no refusal."""
    view.press("New text", "header")
    judge("an empty text", view.text("#verdict") == "There is no text yet.", view.text("#verdict"))
    judge("nothing is wrong with it yet", not view.one("#wrong").is_displayed())
    for name, words in ("chain-store-in-three-towns", "profiles"), ("numbers-at-their-bounds", "127 bits"):
        view.open(CORPUS / f"{name}.efg")
        view.tab("Strategic form")
        judge(f"why {name} has no table", words in view.text("#view .bad"), view.text("#view"))
    view.open(view.made("longer.nfg", b'NFG 1 R "" { "A" } { 1 } 1' + b" " * 2**24))
    judge("a file that is too long", "16,777,216 bytes" in view.text("#verdict"), view.text("#verdict"))


LACK_MEMORY = """
    const { prototype } = gamefile.Engine, { hash } = prototype;
    prototype.hash = async () => {
        prototype.hash = hash;
        throw new gamefile.OutOfMemory('out of memory');
    };
"""


def lack_memory(view):
    """If memory runs out in a call, the page says so, and goes on."""
    view.do(LACK_MEMORY)
    view.tab("Canonical text")
    judge("memory that runs out", view.text("#view .bad") == "Out of memory.", view.text("#view"))
    view.press("Try again", "#view")
    judge("the page goes on", len(view.texts(".hashes code")) == 2, view.text("#view"))


def lack_clipboard(view):
    """If nothing can be copied, the button says so."""
    view.tab("Canonical text")
    view.press("Copy text", "#view")
    view.until(lambda: view.text("#said") == "Copy text: Copied")
    view.do("Object.defineProperty(navigator, 'clipboard', { value: undefined })")
    view.press("Copy link with this game", "#view")
    view.until(lambda: view.text("#said") != "Copy text: Copied")
    said = view.text("#said")
    judge("a clipboard that is not there", said == "Copy link with this game: Not copied", said)


def refuse_browser(view):
    """A browser without WebAssembly is told that it cannot run the page."""
    script = view.command("Page.addScriptToEvaluateOnNewDocument", source="delete window.WebAssembly")
    view.driver.refresh()
    view.until(lambda: view.text("#verdict") != "")
    judge("a browser without WebAssembly", "WebAssembly" in view.text("#verdict"), view.text("#verdict"))
    judge(
        "nothing is offered there",
        not any(it.is_displayed() for it in view.all("header input, header select, button")),
    )
    view.command("Page.removeScriptToEvaluateOnNewDocument", **script)


def show_bytes(view):
    """A file that is not UTF-8 is shown with U+FFFD, to read only; what is saved has its bytes."""
    view.open(view.made("latin-1.efg", b'EFG 2 R "caf\xe9" { "\xff" } p "" 1 1 "" { "\xfe" } 0 t "" 0'))
    judge("a file that is not UTF-8", "UTF-8" in view.text("#source-note"), view.text("#source-note"))
    judge("it is to read only", view.one("#source").get_attribute("readOnly") == "true")
    view.tab("Picture")
    words = [view.text("#view h3"), *view.texts(".picture tspan")]
    judge("labels that are not UTF-8", {"caf\ufffd", "\ufffd"} <= set(words), words)
    view.tab("Canonical text")
    view.press("Save .efg", "#view")
    judge("bytes of labels that are not UTF-8", b'"caf\xe9" { "\xff" }' in view.saved("latin-1-canonical.efg"))


def show_markup(view):
    """What looks like markup in a file is text."""
    label = MARKUP.replace('"', '\\"')
    head = f'EFG 2 R "{label}" {{ "{label}" "</script>" }} "{label}"'
    node = f'p "{label}" 1 1 "{label}" {{ "{label}" "&amp;" }} 0'
    view.open(view.made("markup.efg", f'{head}\n{node}\nt "{label}" 1 "{label}" {{ 1 2 }}\nt "" 0\n'))
    for words in "Picture", "Strategic form", "Canonical text", "Compare":
        view.tab(words)
        judge(f"markup in {words}", view.all("main img") == [])
    judge("markup does nothing", view.driver.title == "markup.efg: gamefile", view.driver.title)
    view.tab("Picture")
    judge("markup is shown", view.text("#view h3") == MARKUP, view.text("#view h3"))
    judge("an entity is shown", "&amp;" in view.texts(".picture .action"), view.texts(".picture .action"))
    view.press("Save SVG", "#view")
    judge("markup in a saved picture", b"<img" not in view.saved("markup.svg"))
    view.open(view.made("markup-refused.nfg", f'NFG 1 R "" {{ "{label}" }} {{ 1 }} <img>'))
    judge("markup in what is refused", view.all("main img") == [] and "<img>" in view.text("#behind"))


# ---------------------------------------------------------------------------------------------------------


VIEWS = [show_examples, show_pictures, save_picture, show_tables, show_large_table, show_form]
FAULTS = [show_refusals, edit, say, lack_memory, lack_clipboard, refuse_browser, show_bytes, show_markup]
PARTS = [*VIEWS, *FAULTS, *page_use.PARTS, *page_sight.PARTS]


def main():
    """Runs all parts, or those that are named."""
    lacks = browser.missing()
    if lacks:
        print(f"NOT RUN page_views: {lacks}")
        print("page_views: 0 passed, 0 failed")
        return 0
    with tempfile.TemporaryDirectory() as room, browser.opened(downloads=room) as driver:
        view = View(driver, Path(room))
        for part in PARTS:
            if sys.argv[1:] and part.__name__ not in sys.argv[1:]:
                continue
            try:
                view.start()
                part(view)
            except Exception as fault:
                judge(f"{part.__name__} to its end", False, repr(fault), fault)
            said = browser.complaints(driver)
            judge(f"no complaints of the browser in {part.__name__}", said == [], said)
    print(f"page_views: {counts['passed']} passed, {counts['failed']} failed")
    return int(counts["failed"] > 0)


if __name__ == "__main__":
    sys.exit(main())
