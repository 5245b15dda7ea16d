"""What a user does with the page beside looking: closing and opening subtrees, large files, comparing, and bringing
files in by drops, pastes and links. tests/page_views.py runs it."""
import random
import re

import browser
from page_driver import CORPUS, EXAMPLES, PAGE, judge, program

POKER, BY_HAND, HORSE, DILEMMA, THREE_DOORS = (
    EXAMPLES / it
    for it in (
        "one-card-poker.efg",
        "one-card-poker-by-hand.efg",
        "selten-horse.efg",
        "prisoners-dilemma.nfg",
        "refused/three-doors.efg",
    )
)


# Folding ------------------------------------------------------------------------------------------------


def nodes(view):
    return len(view.all(".picture .node"))


def fold(view):
    """Subtrees are closed and opened by clicks and by buttons, and a picture is made larger."""
    view.open(POKER)
    view.one('.node[data-node="1"] .mark').click()
    judge("a subtree that is closed", nodes(view) == 7, nodes(view))
    judge("how much is closed", view.text('.node[data-node="1"] .note') == "4 nodes")
    view.one('.node[data-node="1"] .mark').click()
    judge("and opened", nodes(view) == 11, nodes(view))
    view.press("Close all", "#view")
    judge("all are closed", nodes(view) == 3, nodes(view))
    view.press("Open all", "#view")
    judge("all are opened", nodes(view) == 11, nodes(view))
    width = view.one(".picture").size["width"]
    view.press("Larger", "#view")
    judge("a larger picture", view.one(".picture").size["width"] > width * 1.2)
    view.press("As large as fits", "#view")
    judge("a picture that fits", view.one(".picture").size["width"] == width)


def chain(length):
    """Gives a tree of one long path."""
    moves = "".join(f'p "" {i % 2 + 1} {i // 2 + 1} "" {{ "on" }} 0\n' for i in range(length))
    return f'EFG 2 R "chain" {{ "A" "B" }}\n{moves}t "" 1 "end" {{ 1 2 }}\n'


def fold_large(view):
    """Most of a large tree is closed at first, and never more is shown than a picture can hold."""
    view.open(view.made("chain.efg", chain(100_000)))
    judge("a tree of 100,000 moves", 50 < nodes(view) < 300, nodes(view))
    judge("its nodes are counted", "100,001 nodes" in view.text(".viewer .note"), view.text(".viewer .note"))
    before = nodes(view)
    view.do("document.querySelector('.mark.closed').scrollIntoView()")
    view.one(".mark.closed").click()
    judge("more of it is opened", before < nodes(view) < 1500, before, nodes(view))
    view.press("Open all", "#view")
    judge("no more than 1,500 nodes are shown", 1000 < nodes(view) <= 1502, nodes(view))
    actions = " ".join(f'"{i}"' for i in range(1000))
    fan = f'EFG 2 R "fan" {{ "A" }} p "" 1 1 "" {{ {actions} }} 0 ' + 't "" 0 ' * 1000
    view.open(view.made("fan.efg", fan))
    judge("a node with many children", nodes(view) == 42, nodes(view))
    judge("further ones are counted", "960 more" in view.texts(".picture .note"), view.texts(".picture .note"))
    view.do("document.querySelector('.mark.more').scrollIntoView()")
    view.one(".mark.more").click()
    judge("more of its children", nodes(view) == 82, nodes(view))
    view.press("Open all", "#view")
    judge("all of its children", nodes(view) == 1001, nodes(view))


# Large files --------------------------------------------------------------------------------------------


def large_table():
    """Gives a strategic file of some 15 MB."""
    numbers = random.Random(5)
    rows = "".join(f"{numbers.randrange(10**6)} -{numbers.randrange(10**6)}\n" for _ in range(1000 * 1000))
    return f'NFG 1 R "large" {{ "A" "B" }} {{ 1000 1000 }}\n{rows}'


START_CLOCK = """
    window.gaps = [];
    let last = performance.now();
    window.clock = setInterval(() => {
        const now = performance.now();
        gaps.push(now - last);
        last = now;
    }, 10);
"""


def answer_meanwhile(view):
    """While a file of 15 MB is read, the page answers."""
    file = view.made("large.nfg", large_table())
    judge("the large file", 14e6 < file.stat().st_size < 16777216, file.stat().st_size)
    view.do(START_CLOCK)
    view.open(file)
    gap = view.do("clearInterval(clock); return Math.max(...gaps)")
    judge("the longest that the page does not answer", gap < 2500, f"{gap} ms")
    judge("a table of 15 MB", view.text("table.game tbody td") == file.read_text().splitlines()[1])
    view.tab("Canonical text")
    judge("its hash", view.text(".hashes code") == program("hash", file).decode()[:64])
    view.press("Save .nfg", "#view")
    judge("its canonical text", view.saved("large-canonical.nfg") == program("canon", file))


COUNT_STOPS = """
    const { prototype } = gamefile.Engine, { stop } = prototype;
    window.stops = 0;
    prototype.stop = function () {
        window.stops++;
        stop.call(this);
    };
"""


def stop(view):
    """What takes long can be stopped, and asked for again."""
    file = view.made("large.nfg", large_table())
    view.open(file, view.made("again.nfg", file.read_text().replace('"large"', '"again"')))
    view.tab("Compare")
    view.do(COUNT_STOPS)
    # A driver that chooses waits for what the page does then; and before it has clicked, a quick engine is done.
    view.do(
        "const menu = document.getElementById('other'), stop = document.getElementById('stop');"
        "menu.value = [...menu.options].find(it => it.text === 'again.nfg').value;"
        "menu.dispatchEvent(new Event('change'));"
        "const seen = setInterval(() => { if (stop.checkVisibility()) { clearInterval(seen); stop.click(); } }, 1)"
    )
    view.until(lambda: view.do("return window.stops") > 0)
    view.calm()
    judge("the engine is stopped", view.do("return window.stops") == 1, view.do("return window.stops"))
    judge("a call that is stopped", view.text("#view .bad") == "Stopped.", view.text("#view"))
    view.press("Try again", "#view")
    judge("and asked for again", "the same game but for names" in view.text(".answer"), view.text(".answer"))


# Comparing ----------------------------------------------------------------------------------------------


def compare_with(view, first, second):
    """Opens two files, compares the second with the first, and gives the answer."""
    view.open(first)
    view.open(second)
    view.tab("Compare")
    view.choose("#other", view.text("#files li:nth-last-child(2) .name span"))
    return view.text(".answer")


def find_same(view):
    """Two files of the same game: which sets and outcomes correspond, marked in both pictures."""
    answer = compare_with(view, POKER, BY_HAND)
    judge("the same game", answer == f"{BY_HAND.name} and {POKER.name} are the same game.", answer)
    rows = [[it.text for it in row.find_elements("css selector", "th, td")] for row in view.all(".pairs tbody tr")]
    pairs = [line.split() for line in program("same", "--map", BY_HAND, POKER).decode().splitlines()[1:]]
    movers = {"0": "chance", "1": "Alice", "2": "Bob"}
    expected = [[f"Set of {movers[it[1]]}" if it[0] == "set" else "Outcome", *it[-2:]] for it in pairs]
    judge("what corresponds", sorted(row[:3] for row in rows) == sorted(expected), rows, expected)
    for place, (number, count) in {1: ("20", 1), 2: ("7", 2), 5: ("101", 3)}.items():
        view.all(".pairs tbody button")[place].click()
        marked = [len(it.find_elements("css selector", ".node.marked")) for it in view.all(".side-by-side section")]
        judge(f"marks of {rows[place]}", (rows[place][1], marked) == (number, [count, count]), marked)
    numbers = set(view.texts(".side-by-side .name"))
    judge("numbers in the pictures", {"set 20", "set 1", "outcome 102"} <= numbers, numbers)


def find_alike(view):
    """Two files that are the same but for names."""
    answer = compare_with(view, DILEMMA, EXAMPLES / "prisoners-dilemma-by-outcomes.nfg")
    judge("tables that are the same but for names", "are the same game but for names" in answer, answer)
    judge("both are shown", len(view.all("table.game")) == 2)
    titles = view.text(".comparison p")
    judge("titles that differ", "“Two suspects” and “Prisoner's dilemma”" in titles, titles)
    other = view.made("other.efg", POKER.read_text().replace('"Alice wins big"', '"a great win"'))
    answer = compare_with(view, POKER, other)
    judge("trees that are the same but for names", "are the same game but for names" in answer, answer)
    names = view.texts(".pairs td")
    judge("names that differ", {"Alice wins big", "a great win"} <= set(names), names)


def find_different(view):
    """Two files that are not the same: where they first differ."""
    other = view.made("more.efg", POKER.read_text().replace("{ -2 2 }", "{ -3 3 }"))
    answer = compare_with(view, POKER, other)
    judge("trees that are not the same", "are not the same game" in answer, answer)
    judge("where they differ", view.texts(".lines mark") == ["3 3", "2 2"], view.texts(".lines mark"))
    marked = [it.get_attribute("data-node") for it in view.all(".node.marked")]
    judge("the node where they differ", marked == ["8", "8"], marked)
    other = view.made("more.nfg", DILEMMA.read_text().replace("-10", "-11", 1))
    answer = compare_with(view, DILEMMA, other)
    judge("tables that are not the same", "are not the same game" in answer, answer)
    judge("the profile where they differ", len(view.all("td.marked")) == 2, view.text(".comparison"))
    answer = compare_with(view, *(view.made(f"{it}.nfg", b'NFG 1 R "" { "%c" } { 2 } 1 2' % it) for it in (254, 255)))
    judge("tables whose labels are not UTF-8", "are not the same game" in answer, answer)
    judge("where they differ", "bytes that are not UTF-8" in view.text(".comparison"), view.text(".comparison"))
    answer = compare_with(view, POKER, EXAMPLES / "stag-hunt.nfg")
    judge("a tree and a table", "are not the same game" in answer, answer)
    judge(
        "which is a tree",
        "one-card-poker (2).efg is a tree" in view.text(".comparison p"),
        view.text(".comparison p"),
    )
    compare_with(view, THREE_DOORS, POKER)
    judge(
        "a file that is refused", "three-doors.efg is refused: E13" in view.text("#view .bad"), view.text("#view")
    )
    view.choose("#other", "centipede.efg")
    judge("an example", "centipede.efg are not the same game" in view.text(".answer"), view.text(".answer"))


# Coming in ----------------------------------------------------------------------------------------------


def names_of_files(view):
    return view.texts("#files .name span")


def drop_and_paste(view):
    """Files that are dropped, a text that is pasted, and names that are taken."""
    view.drop(POKER, HORSE)
    view.until(lambda: len(view.all("#files li")) == 2 and not view.all("#files .waiting"))
    view.calm()
    judge("files that are dropped", names_of_files(view) == [POKER.name, HORSE.name], names_of_files(view))
    judge("the first of them is shown", view.text("#name") == POKER.name and nodes(view) == 11, view.text("#name"))
    view.one("#source").click()
    view.with_control("a")
    view.with_control("c")
    view.press(f"{HORSE.name} tree", "#files")
    view.with_control("v")
    view.until(lambda: view.text("#name") == "pasted.efg")
    view.calm()
    judge("a text that is pasted", view.one("#source").get_attribute("value") == POKER.read_text())
    judge("its picture", nodes(view) == 11, nodes(view))
    view.press("Close pasted.efg", "#files")
    judge("a file that is closed", names_of_files(view) == [POKER.name, HORSE.name], names_of_files(view))
    view.open(POKER, BY_HAND)
    names = names_of_files(view)[2:]
    judge("names that are taken", names == ["one-card-poker (2).efg", BY_HAND.name], names)


def link(view):
    """A link that holds a game is copied, and opened."""
    view.open(BY_HAND)
    view.tab("Canonical text")
    view.press("Copy link with this game", "#view")
    view.until(lambda: view.text("#said").startswith("Copy link"))
    view.press("New text", "header")
    view.with_control("v")
    view.until(lambda: "#game=" in view.one("#source").get_attribute("value"))
    copied = view.one("#source").get_attribute("value")
    judge("a link of plain letters", re.fullmatch(r"file://[^#]*#game=[\w-]+&name=[\w%+.-]+", copied), copied)
    view.start("#" + copied.split("#")[1])
    judge("the name of a game in a link", view.text("#name") == BY_HAND.name, view.text("#name"))
    judge("a game in a link", view.one("#source").get_attribute("value") == BY_HAND.read_text())


# A link whose game unpacks to 32 MiB of zeros.
ZEROS = """
    const stream = new Blob([new Uint8Array(2 ** 25)]).stream().pipeThrough(new CompressionStream('deflate-raw'));
    return new Response(stream).arrayBuffer().then(it => btoa(String.fromCharCode(...new Uint8Array(it))))
"""


def refuse_links(view):
    """A link that is broken or too large is refused, and none is made of a game that is too long."""
    view.start("#game=AAAA")
    judge("a link that is broken", "cannot be read" in view.text("#said"), view.text("#said"))
    judge("a link that is broken, in sight", "cannot be read" in view.text("#notice"), view.text("#notice"))
    letters = view.do(ZEROS).replace("+", "-").replace("/", "_").rstrip("=")
    view.start(f"#game={letters}")
    judge("a link of 32 MiB", "larger than 16 MiB" in view.text("#said"), view.text("#said"))
    judge("a link of 32 MiB, in sight", "larger than 16 MiB" in view.text("#notice"), view.text("#notice"))
    numbers = random.Random(3)
    payoffs = " ".join(str(numbers.randrange(10**9)) for _ in range(4000))
    view.open(view.made("long.nfg", f'NFG 1 R "" {{ "A" }} {{ 4000 }} {payoffs}'))
    view.tab("Canonical text")
    view.press("Copy link with this game", "#view")
    view.until(lambda: "too long for a link" in view.text("#said"))
    judge("a game that is too long for a link", "too long for a link" in view.text("#notice"))


# Tries to load an image, to fetch a file, and to run a script.
TRY_ALL = """
    const done = arguments[0], image = new Image();
    image.onload = () => done(['an image is loaded']);
    image.onerror = async () => {
        const script = document.createElement('script');
        script.textContent = 'window.ran = true';
        document.body.append(script);
        done([await fetch('index.html').then(() => 'fetched', () => 'refused'), window.ran ? 'ran' : 'refused']);
    };
    image.src = 'data:image/gif;base64,R0lGODlhAQABAAAAACwAAAAAAQABAAA=';
"""
POLICY = {
    *("default-src 'none'", "connect-src 'none'", "base-uri 'none'", "form-action 'none'"),
    *("script-src 'self' 'wasm-unsafe-eval'", "style-src 'self'", "worker-src blob:"),
}
MARKUP = re.compile(r"innerHTML|outerHTML|insertAdjacentHTML|document\.write|\beval\(|new Function")


def stay_apart(view):
    """The page may connect to nothing, and run no script that is not its own; and it makes no markup of texts."""
    seen = view.driver.execute_async_script(TRY_ALL)
    judge("what the policy refuses", seen == ["refused", "refused"], seen)
    policy = view.one("meta[http-equiv]").get_attribute("content").split("; ")
    judge("the policy", set(policy) == POLICY, policy)
    # What was refused is in the log.
    browser.complaints(view.driver)
    for file in sorted(PAGE.glob("*.js")):
        if file.name != "built.js":
            found = MARKUP.findall(file.read_text())
            judge(f"{file.name} makes no markup of texts", found == [], found)


PARTS = [
    *(fold, fold_large, answer_meanwhile, stop, find_same, find_alike, find_different),
    *(drop_and_paste, link, refuse_links, stay_apart),
]
