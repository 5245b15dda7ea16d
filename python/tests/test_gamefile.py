"""Tests the package gamefile against the program: test_gamefile.py PROGRAM TESTS-FOLDER

Each file of corpus/ and forms/, each row of refusals.txt, each file of explained.txt, and each pair of
same.txt goes through the package and has to give what the program writes: the same bytes, codes, places
and hints. The last line is 'python: N passed, M failed'.
"""
import doctest
import hashlib
import os
import pickle
import re
import subprocess
import sys
import tempfile
import threading
import time
from concurrent.futures import ThreadPoolExecutor
from pathlib import Path

import gamefile

PROGRAM, TESTS = Path(sys.argv[1]).resolve(), Path(sys.argv[2])
THREADS = 8
# What eight threads have to gain on this many processors, over some rounds.
PROCESSORS, GAIN, ROUNDS = 4, 2, 5
LOCK_TRIES = 5
GAMES_OF_SAME = 24


def bytes_of(text):
    """Gives the bytes that a text stands for."""
    return re.sub(rb"%([0-9a-f]{2})", lambda hit: bytes.fromhex(hit[1].decode()), text.encode())


def refusals():
    """Gives the files of refusals.txt, and those of explained.txt."""
    for line in (TESTS / "refusals.txt").read_text().splitlines():
        if line and not line.startswith("#"):
            yield bytes_of(line.split("| ", 1)[1])
    for block in (TESTS / "explained.txt").read_text().split("\n\n"):
        lines = [line.removeprefix("< ") for line in block.splitlines() if line.startswith("< ")]
        if lines:
            yield bytes_of("\n".join(lines))


def same_games():
    """Gives the first games of same.txt."""
    lines = (TESTS / "same.txt").read_bytes().splitlines()
    games = [line.split(b"|", 1)[1].strip() for line in lines if line and not line.startswith(b"#")]
    return games[:GAMES_OF_SAME]


def by_program(words, data):
    """Gives what the program writes for a file, in bytes, or as the line of its failure."""
    ran = subprocess.run([PROGRAM, *words], input=data, capture_output=True, timeout=60)
    return ran.stdout if ran.returncode == 0 else ran.stderr.decode()


def by_package(call, data, **options):
    """Gives what a function answers for a file, or its exception as the program writes it."""
    try:
        return call(data, **options)
    except gamefile.GameFileError as error:
        place = data[: error.start]
        if error.line != place.count(b"\n") + 1 or error.column != len(place.split(b"\n")[-1]) + 1:
            return f"line {error.line}, column {error.column}"
        sent = pickle.loads(pickle.dumps(error))
        if (sent.args, vars(sent)) != (error.args, vars(error)):
            return "not pickled"
        return f"{error.code} at {error.start}..{error.end}\n"
    except gamefile.TableError as error:
        return f"{error}\n"


def told(data):
    """Gives what the program writes with --explain about a file that it refuses, or None."""
    text = by_program(["check", "--explain"], data)
    return text if isinstance(text, str) else None


def hint_of(data):
    """Gives the hint of a file that is refused, or None."""
    try:
        gamefile.check(data)
    except gamefile.GameFileError as error:
        return error.hint
    return None


def hint_in(words):
    """Gives the hint in what the program writes about a file, or None."""
    found = re.search(r"^  hint: (.+)$", words or "", re.MULTILINE)
    return found and found[1]


def judge_file(data):
    """Gives the names of the calls that do not answer as the program."""
    text, words = by_program(["canon"], data), told(data)
    kind = by_package(gamefile.check, data)
    expected = {
        "check": (f"{kind}\n".encode() if kind in ("tree", "table") else kind, by_program(["check"], data)),
        "explain": (gamefile.explain(data, name="<stdin>"), words),
        "hint": (hint_of(data), hint_in(words)),
        "canonical": (by_package(gamefile.canonical, data), text),
        "table": (by_package(gamefile.table, data), by_program(["table"], data)),
        "reduced": (
            by_package(gamefile.table, data, reduced=True),
            by_program(["table", "--reduced"], data),
        ),
        "key": (
            by_package(gamefile.key, data),
            hashlib.sha256(text).hexdigest() if isinstance(text, bytes) else text,
        ),
    }
    if isinstance(text, bytes):
        aside = gamefile.canonical(data, names=False)
        expected["names aside"] = (gamefile.same(data, aside, names=False), True)
        expected["key without names"] = (
            gamefile.key(data, names=False),
            hashlib.sha256(aside).hexdigest(),
        )
    return [f"{name}: {got} and not {want}" for name, (got, want) in expected.items() if got != want]


def judge_pair(pair):
    """Gives what is wrong when two files are compared: each way has to agree with canonical texts."""
    a, b = pair
    failed = []
    for names in (True, False):
        try:
            answer = gamefile.same(a, b, names=names)
        except gamefile.GameFileError as error:
            of = {"a": a, "b": b}[error.which]
            answer = f"{error.code} at {error.start}..{error.end}\n"
            expected = by_package(gamefile.check, of)
        else:
            texts = [gamefile.canonical(game, names=names) for game in (a, b)]
            expected = texts[0] == texts[1]
        if answer != expected:
            failed.append(f"same, names={names}: {answer} and not {expected}")
    return failed


def judge_names():
    """Gives what is wrong with the names that explanations begin with, and with buffers that are too small."""
    failed = []
    with tempfile.TemporaryDirectory() as folder:
        for name in ("game.efg", "\x1b[31m\u0085", "ü\u4e2d" * 30):
            path = Path(folder, name)
            path.write_bytes(b'EFG 2 R "" { "A" } t "" 1')
            ran = subprocess.run([PROGRAM, "check", "--explain", path], capture_output=True, timeout=60)
            failed += [] if gamefile.explain(path) == ran.stderr.decode() else [f"explain of {name!r}"]
    names = (None, "<input>"), ("a\udcffb", "a\ufffdb"), ("\udcff" * 2000, "\ufffd" * 2000)
    for name, shown in (*names, ("a\0b", "a?b"), ("x\ud800", "x\ufffd")):
        found = gamefile.explain(b"", name=name)
        failed += [] if found.startswith(f"{shown}:1:1: E3 at 0..0: ") else [f"explain by the name {name!r}"]
    return failed


def judge_renumbering(game):
    """Gives what is wrong with the numbers that correspond in a file and in its canonical text."""
    text = game.with_suffix(".out")
    pairs = gamefile.renumbering(game.read_bytes(), text.read_bytes())
    lines = [f"set {player} {number} {new}" for (player, number), new in pairs.sets.items()]
    lines += [f"outcome {number} {new}" for number, new in pairs.outcomes.items()]
    ran = subprocess.run([PROGRAM, "same", "--map", game, text], capture_output=True, timeout=60)
    expected = ran.stdout.decode().splitlines()
    return [] if ["same", *lines] == expected else [f"renumbering of {game.name}: {lines} and not {expected}"]


def judge_no_renumbering():
    """Gives what is wrong with the numbers that correspond in files that are not the same, or are refused."""
    tree, table = b'EFG 2 R "" { } t "" 0', b'NFG 1 R "" { } { }'
    failed = [] if gamefile.renumbering(tree, table) is None else ["renumbering of a tree and a table"]
    for pair, which in [((tree[:-1], table), "a"), ((tree, table[:-1]), "b")]:
        try:
            failed.append(f"renumbering of a refused file: {gamefile.renumbering(*pair)}")
        except gamefile.GameFileError as error:
            failed += [] if error.which == which else [f"renumbering refuses {error.which}"]
    return failed


def large_tree():
    """Gives a tree of about 4 MB."""
    line = b'p "" 1 1 0\n'
    return b'EFG 2 R "d" { "A" }\np "" 1 1 "i" { "L" } 0\n' + line * 400_000 + b't "" 0\n'


def seconds(threads, call, inputs):
    """Gives the time that some threads take to make a call on all inputs."""
    with ThreadPoolExecutor(threads) as pool:
        start = time.perf_counter()
        list(pool.map(call, inputs))
        return time.perf_counter() - start


def gains(calls, inputs):
    """Gives how many times as fast many threads are as one, for each call. The calls take turns, since what
    else a machine does comes and goes."""
    alone, together = dict.fromkeys(calls, 0), dict.fromkeys(calls, 0)
    for _ in range(ROUNDS):
        for call in calls:
            alone[call] += seconds(1, call, inputs)
            together[call] += seconds(THREADS, call, inputs)
    return [alone[call] / together[call] for call in calls]


def judge_threads():
    """Gives what is wrong if many threads are hardly faster than one. What a busy machine leaves for them is
    seen by what the standard library gains, which does not hold the lock either."""
    if len(os.sched_getaffinity(0)) < PROCESSORS:
        print(f"NOT RUN python, what threads gain: there are fewer than {PROCESSORS} processors")
        return []
    possible, found = gains([hashlib.sha256, gamefile.check], [large_tree()] * 16)
    print(f"python: {THREADS} threads are {found:.1f} times as fast as one; sha256 gains {possible:.1f}")
    if possible < GAIN:
        print("NOT RUN python, what threads gain: the machine is busy")
        return []
    return [] if found >= min(GAIN, 0.7 * possible) else [f"{THREADS} threads gain {found:.1f}"]


def many_profiles(sets=18):
    """Gives a tree with a long table."""
    move = 'p "" 1 {0} "" {{ "x" "y" }} 0 t "" {0} "" {{ {0} }} '
    moves = "".join(map(move.format, range(1, sets + 1)))
    return f'EFG 2 R "" {{ "A" }} {moves} t "" 0'.encode()


def goes_on_during(call):
    """Whether this thread goes on while another one makes a long call: else all of it is one gap."""
    times, ticks = [], []

    def timed():
        times.append(time.perf_counter())
        call()
        times.append(time.perf_counter())

    thread = threading.Thread(target=timed)
    thread.start()
    while thread.is_alive():
        ticks.append(time.perf_counter())
    start, end = times
    within = [start, *(tick for tick in ticks if start < tick < end), end]
    return max(after - before for before, after in zip(within, within[1:])) < (end - start) / 2


def judge_lock():
    """Gives what is wrong if the interpreter's lock is held during a call."""
    game = many_profiles()
    tries = (goes_on_during(lambda: gamefile.table(game)) for _ in range(LOCK_TRIES))
    return [] if any(tries) else ["the interpreter's lock is held during a call"]


def judge_examples():
    """Gives what is wrong in the examples that docstrings show."""
    tried = [doctest.testmod(module) for module in (gamefile, gamefile.games, gamefile.errors)]
    return [f"{it.failed} of {it.attempted} examples" for it in tried if it.failed or not it.attempted]


def main():
    files = [p.read_bytes() for p in sorted([*TESTS.glob("corpus/*.[en]fg"), *TESTS.glob("forms/*.efg")])]
    files += refusals()
    games = same_games()
    pairs = [(a, b) for a in games for b in games]
    renumbered = [p for p in TESTS.glob("corpus/*.[en]fg") if p.with_suffix(".out").exists()]
    with ThreadPoolExecutor() as pool:
        results = [*pool.map(judge_file, files), *pool.map(judge_pair, pairs)]
        results += pool.map(judge_renumbering, renumbered)
    results += [judge_names(), judge_no_renumbering(), judge_lock(), judge_threads(), judge_examples()]
    failed = [line for lines in results for line in lines]
    for line in failed:
        print(f"FAILED {line[:400]}")
    bad = sum(1 for lines in results if lines)
    print(f"python: {len(results) - bad} passed, {bad} failed")
    return 1 if bad or not files or not renumbered else 0


sys.exit(main())
