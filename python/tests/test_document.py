"""Runs the Python examples of a document, one after another, and calls its fixture and its reader of
payoffs, if it has them:

    test_document.py FILE

A stand-in takes the place of pytest. The last line is 'document: N passed, M failed'.
"""
import re
import sys
import types
from pathlib import Path

# Titles that differ only where text is split into lines, or in a byte that is not UTF-8.
TITLES = [(b"a\rb", b"a\nb"), (b"a\r\nb", b"a\nb"), ("a\u2028b".encode(), b"a\nb"), (b"caf\xe9", b"cafe")]
# Games, with labels that look like other parts of a table, and their payoffs.
LABELS = b'NFG 1 R "} \\" {" { "\\"" "}" } { { "{" "\\\\"" } { "" } } "\n\n1 2\n" 1/2 -3 0.25 4'
TABLES = {
    LABELS: {(0, 0): (0.5, -3), (1, 0): (0.25, 4)},
    b'NFG 1 R "" { "A" "B" "C" } { 2 1 2 } 0 0 0  1 0 0  0 0 1  1 0 1': {
        profile: profile for profile in [(0, 0, 0), (1, 0, 0), (0, 0, 1), (1, 0, 1)]
    },
    b'NFG 1 R "" { } { }': {(): ()},
}


def stand_in():
    """Gives what the examples take of pytest."""
    pytest = types.ModuleType("pytest")

    def fail(reason):
        raise AssertionError(reason)

    pytest.fixture, pytest.fail = lambda function: function, fail
    return pytest


def titled(title):
    """Gives a game with this title."""
    return b'NFG 1 R "%b" { "A" } { 1 } 0' % title


def holds(assert_same_game, *games):
    """Whether a fixture finds that games are the same."""
    try:
        assert_same_game(*games)
    except AssertionError:
        return False
    return True


def judge_fixture(assert_same_game):
    """Gives what the fixture of a document judges wrongly."""
    for titles in TITLES:
        game, other = map(titled, titles)
        if not holds(assert_same_game, game, game + b"\n") or holds(assert_same_game, game, other):
            yield f"the fixture, at the titles {titles}"


def judge_payoffs(payoffs):
    """Gives what the reader of payoffs of a document reads wrongly."""
    for game, expected in TABLES.items():
        found = payoffs(game)
        if found != expected or list(found) != list(expected):
            yield f"the payoffs {found} and not {expected}"


def main():
    sys.modules["pytest"] = stand_in()
    names = {"__name__": "document"}
    document = Path(sys.argv[1]).read_text()
    blocks = re.findall(r"^```python\n(.*?)^```$", document, re.M | re.S)
    titles = TITLES if "pytest.fixture" in document else []
    tables = TABLES if "def payoffs(" in document else {}
    faults = []
    for block in blocks:
        try:
            exec(block, names)
        except Exception as error:
            faults.append(f"{error!r} in\n{block}")
    if titles:
        faults += judge_fixture(names["assert_same_game"]())
    if tables:
        faults += judge_payoffs(names["payoffs"])
    for fault in faults:
        print(f"FAILED {fault}")
    passed = len(blocks) + len(titles) + len(tables) - len(faults)
    print(f"document: {passed} passed, {len(faults)} failed")
    return 1 if faults or not blocks else 0


sys.exit(main())
