"""Reads game files as docs/FORMATS.md says: gives the canonical text of a file, or its refusal.

It is written from that document alone, and shares nothing with the crates. `tests/mutated` compares the
program with it.
"""
import re
from fractions import Fraction
from math import lcm
from typing import NamedTuple

# M in the document.
LARGEST = 2**127 - 1
LARGEST_INDEX = 2**32 - 1
MOST_PROFILES = 2**20
# The most digits after the point, and the greatest exponent.
MOST_PLACES = 38

# White space and a token; `broken` is a quote that opens an unterminated text.
TOKEN = re.compile(
    rb'[\t-\r ]*(?:(?P<mark>[{},])|(?P<text>"(?:[^"]|(?<=\\)")*?(?<!\\)")'
    rb'|(?P<bare>[^\t-\r {},"]+)|(?P<broken>")|\Z)'
)
NUMBER = re.compile(
    rb"[+-]?(?:(?P<over>[0-9]+)/(?P<under>[0-9]+)"
    rb"|(?:(?P<digits>[0-9]+)(?:\.(?P<places>[0-9]*))?|\.(?P<only>[0-9]+))"
    rb"(?:[eE](?P<sign>[+-]?)(?P<exponent>[0-9]+))?)"
)


class Refusal(Exception):
    """The code of a refusal, its place, and what was expected for E3, and for E7."""

    def __init__(self, code, start, end, due=None):
        super().__init__(code, start, end, due)
        self.code, self.start, self.end, self.due = code, start, end, due

    def __str__(self):
        return f"E{self.code} at {self.start}..{self.end}"


class Token(NamedTuple):
    """A token: `{`, `}`, `,`, `text`, `bare`, or the `end` of the file, with its bytes and its span."""

    kind: str
    spelled: bytes
    start: int
    end: int


class Name(bytes):
    """A spelled label that is written empty if names are left out."""


class Game:
    """The kind of a game, and its canonical text, as lines of tokens."""

    def __init__(self, kind, lines):
        self.kind, self.lines = kind, lines

    def text(self, names=True):
        return b"".join(
            b" ".join(b'""' if isinstance(part, Name) and not names else part for part in line) + b"\n"
            for line in self.lines
        )


def whole(digits):
    """The value of digits, or one above all that are allowed."""
    digits = digits.lstrip(b"0")
    return LARGEST + 1 if len(digits) > 39 else int(digits or b"0")


def spelled(number):
    return str(number).encode()


def braced(parts):
    return [b"{", *parts, b"}"]


def fits(total, share):
    """Whether two numbers over their least common denominator, and their sum, are within the bounds."""
    under = lcm(total.denominator, share.denominator)
    return all(abs(part * under) <= LARGEST for part in (1, total, share, total + share))


class Reader:
    """The tokens of a file, of which `token` is to be judged. What is called as a part of the grammar
    takes its tokens, but `number` and `index` leave theirs to be judged further."""

    def __init__(self, data):
        self.data, self.after, self.token = data, 0, None
        self.players = []
        # Sets by player, chance being 0, and number; outcomes by number. Each has its canonical number first.
        self.sets, self.outcomes, self.counts = {}, {}, {}
        self.advance()

    def advance(self):
        """Takes the token, which was judged, and looks at the next one."""
        taken, found = self.token, TOKEN.match(self.data, self.after)
        group = found.lastgroup
        self.after = found.end()
        start = found.start(group) if group else self.after
        text = found[group] if group else b""
        self.token = Token(text.decode() if group == "mark" else group or "end", text, start, self.after)
        if group == "broken":
            self.refuse(2)
        return taken and taken.spelled

    def refuse(self, code, due=None):
        raise Refusal(code, self.token.start, self.token.end, due)

    def take(self, kind, due):
        if self.token.kind != kind:
            self.refuse(3, due)
        return self.advance()

    def word(self, words, due):
        if self.token.kind != "bare" or self.token.spelled not in words:
            self.refuse(3, due)
        return self.advance()

    def index(self, due, least=0):
        if self.token.kind != "bare":
            self.refuse(3, due)
        digits = self.token.spelled
        if not digits.isdigit() or not least <= whole(digits) <= LARGEST_INDEX:
            self.refuse(7, due)
        return whole(digits)

    def number(self):
        if self.token.kind != "bare":
            self.refuse(3, "Number")
        shape = NUMBER.fullmatch(self.token.spelled)
        if not shape:
            self.refuse(4)
        sign = -1 if self.token.spelled.startswith(b"-") else 1
        if shape["under"]:
            over, under = whole(shape["over"]), whole(shape["under"])
            if under == 0:
                self.refuse(5)
            if max(over, under) > LARGEST:
                self.refuse(6)
            return Fraction(sign * over, under)
        after_point = shape["places"] or shape["only"] or b""
        digits = whole((shape["digits"] or b"") + after_point)
        exponent = whole(shape["exponent"] or b"")
        if digits > LARGEST or max(len(after_point), exponent) > MOST_PLACES:
            self.refuse(6)
        shift = len(after_point) + (exponent if shape["sign"] == b"-" else -exponent)
        if shift > MOST_PLACES or digits * 10 ** max(0, -shift) > LARGEST:
            self.refuse(6)
        return sign * digits / Fraction(10) ** shift

    def labels(self):
        """Texts, as far as a closing brace, which is left."""
        found = []
        while self.token.kind != "}":
            found.append(self.take("text", "Text"))
        return found

    def payoffs(self, known=None):
        """Payoffs and the closing brace; a repeated description has to match the known ones."""
        found = []
        for place in range(len(self.players)):
            found.append(self.number())
            if known and found[place] != known[place]:
                self.refuse(10)
            self.advance()
            if self.token.kind == ",":
                self.advance()
        self.take("}", "Closing")
        return found

    def comment(self):
        return Name(self.advance() if self.token.kind == "text" else b'""')

    def game(self):
        """Reads the whole file."""
        form = self.word([b"NFG", b"EFG"], "Format")
        version = self.word([b"1"] if form == b"NFG" else [b"2"], "Version")
        self.word([b"R", b"D"], "Letter")
        title = Name(self.take("text", "Text"))
        self.take("{", "Opening")
        self.players = self.labels()
        self.advance()
        head = [form, version, b"R", title, *braced(self.players)]
        kind, lines = ("table", self.table()) if form == b"NFG" else ("tree", self.tree())
        if self.token.kind != "end":
            self.refuse(3, "End")
        return Game(kind, [head, *lines])

    # Strategic files

    def table(self):
        """What follows the players, as lines."""
        self.take("{", "Opening")
        strategies, profiles = self.strategies()
        self.take("}", "Closing")
        comment = self.comment()
        if self.token.kind == "{":
            rows = self.outcome_rows(profiles)
        else:
            rows = [self.flat_row() for _ in range(profiles)] if self.players else [[]]
        # Labels from counts are made late, since a file may have few payoffs and large counts.
        lists = [[it if isinstance(it, bytes) else b'"%d"' % it for it in labels] for labels in strategies]
        written = braced([part for labels in lists for part in braced(labels)])
        return [written, [comment], [], *([spelled(payoff) for payoff in row] for row in rows)]

    def strategies(self):
        """The labels of each player's strategies, or their numbers, and how many profiles there are."""
        found, profiles = [], 1
        is_lists = self.token.kind == "{"
        if self.players and not is_lists and self.token.kind != "bare":
            self.refuse(3, "Strategies")
        for _ in self.players:
            if is_lists:
                self.take("{", "Opening")
                labels = self.labels()
                if not labels:
                    self.refuse(15)
            else:
                labels = range(1, self.index("Count", 1) + 1)
            profiles *= len(labels)
            if profiles > MOST_PROFILES:
                self.refuse(18)
            self.advance()
            found.append(labels)
        return found, profiles

    def flat_row(self):
        row = []
        for _ in self.players:
            row.append(self.number())
            self.advance()
        return row

    def outcome_rows(self, profiles):
        self.advance()
        outcomes = [[0] * len(self.players)]
        while self.token.kind != "}":
            self.take("{", "Opening")
            self.take("text", "Text")
            outcomes.append(self.payoffs())
        self.advance()
        rows = []
        for _ in range(profiles):
            number = self.index("ProfileOutcome")
            if number >= len(outcomes):
                self.refuse(16)
            self.advance()
            rows.append(outcomes[number])
        return rows

    # Extensive files

    def tree(self):
        """What follows the players, as lines."""
        lines, due = [[self.comment()], []], 1
        while due:
            line = []
            due += self.node(line) - 1
            lines.append(line)
        return lines

    def node(self, line):
        """Reads a node, writes its line, and gives the number of its children."""
        letter, player, actions = self.token.spelled, 0, []
        if letter == b"p" and not self.players:
            self.refuse(8)
        self.word([b"c", b"p", b"t"], "Node")
        line += [letter, Name(self.take("text", "Text"))]
        if letter == b"p":
            player = self.index("Player", 1)
            if player > len(self.players):
                self.refuse(8)
            self.advance()
            line.append(spelled(player))
        if letter != b"t":
            actions = self.infoset(player, line)
        self.outcome(line)
        return len(actions)

    def canonical(self, owner):
        """The next number among the sets of a player, or among the outcomes."""
        self.counts[owner] = self.counts.get(owner, 0) + 1
        return spelled(self.counts[owner])

    def infoset(self, player, line):
        number = self.index("Set", 1)
        self.advance()
        if (player, number) in self.sets:
            place, name, actions = self.sets[player, number]
            line.append(place)
            if self.is_described_again(name):
                self.known_actions(actions)
            return actions
        name = self.new_name()
        actions = self.new_actions(player == 0)
        place = self.canonical(player)
        self.sets[player, number] = place, name, actions
        line += [place, Name(name), b"{"]
        for label, share in actions:
            line += [label] if share is None else [label, spelled(share)]
        line.append(b"}")
        return actions

    def new_name(self):
        """The name of a new set or outcome, and an opening brace."""
        if self.token.kind != "text":
            self.refuse(9)
        name = self.advance()
        self.take("{", "Opening")
        return name

    def is_described_again(self, name):
        """Whether a known set or outcome is described. Its name and an opening brace are read then."""
        if self.token.kind != "text":
            return False
        if self.token.spelled != name:
            self.refuse(10)
        self.advance()
        self.take("{", "Opening")
        return True

    def new_actions(self, is_chance):
        """Labels, each with a probability or with None."""
        found, total = [], Fraction(0)
        while self.token.kind != "}":
            label, share = self.take("text", "Text"), None
            if is_chance:
                share = self.number()
                if share < 0:
                    self.refuse(11)
                if not fits(total, share):
                    self.refuse(14)
                total += share
                if total > 1:
                    self.refuse(12)
                self.advance()
            found.append((label, share))
        if not found:
            self.refuse(15)
        if is_chance and total < 1:
            self.refuse(13)
        self.advance()
        return found

    def known_actions(self, actions):
        for label, share in actions:
            if self.token.kind == "}" or (self.token.kind == "text" and self.token.spelled != label):
                self.refuse(10)
            self.take("text", "Text")
            if share is not None:
                if self.number() != share:
                    self.refuse(10)
                self.advance()
        if self.token.kind == "text":
            self.refuse(10)
        self.take("}", "Closing")

    def outcome(self, line):
        number = self.index("NodeOutcome")
        self.advance()
        if number == 0:
            line.append(b"0")
        elif number in self.outcomes:
            place, name, payoffs = self.outcomes[number]
            line.append(place)
            if self.is_described_again(name):
                self.payoffs(payoffs)
        else:
            name = self.new_name()
            payoffs = self.payoffs()
            place = self.canonical("outcomes")
            self.outcomes[number] = place, name, payoffs
            line += [place, Name(name), *braced(map(spelled, payoffs))]


def read(data):
    """Gives the game in a file, or raises its refusal."""
    return Reader(data).game()
