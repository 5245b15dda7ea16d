"""What the files made to hurt have in common: a game as the program is given it, with the answer of
each command, and how texts of games are spelled.
"""
from typing import NamedTuple, Union

# The most bytes that an input has.
LIMIT = 16_777_216


class Rows(NamedTuple):
    """The text of a table of which only some rows are known: what stands before the rows, how many there
    are, and some of them by their place, from 0.
    """

    head: bytes
    count: int
    known: dict

    def fit(self, text):
        """Whether a text is that of such a table."""
        if not text.startswith(self.head):
            return False
        lines = text[len(self.head) :].split(b"\n")
        whole = len(lines) == self.count + 1 and lines[-1] == b""
        return whole and all(lines[place] == row for place, row in self.known.items())


class Answer(NamedTuple):
    """What a command has to write on standard output and on standard error, and its status."""

    output: Union[bytes, Rows]
    errors: bytes = b""
    status: int = 0

    def is_given_by(self, found):
        """Whether a run that wrote this and ended in this way gave this answer."""
        fits = self.output.fit if isinstance(self.output, Rows) else self.output.__eq__
        return fits(found.output) and self[1:] == found[1:]


class Game(NamedTuple):
    """A game in two files that mean the same, and what each command answers: `same` and `duplicates` are
    given both.
    """

    file: bytes
    other: bytes
    answers: dict


def fitting(used, *units):
    """How many times the units fit into a file together, after the bytes that are used."""
    return (LIMIT - 1 - used) // sum(map(len, units))


def ended(line, status=2):
    """The answer of a run that writes one line on standard error."""
    return Answer(b"", f"{line}\n".encode(), status)


def answer_of(text):
    """The answer that writes a text, if it is not an answer already."""
    return text if isinstance(text, Answer) else Answer(text.encode())


def without_title(text):
    """A canonical text with an empty title: of the games here, this is the text without names."""
    head = len('NFG 1 R "')
    return text[:head] + text[text.index('" {', head) :]


def duplicated(text, file, other):
    """What is answered about duplicates, by the hashes of a text, if there is one."""
    if isinstance(text, Answer):
        # (out of memory at the end of each file)
        lines = [f"{name}: E19 at {len(data)}..{len(data)}" for name, data in (("file", file), ("other", other))]
        return ended("\n".join(lines), 5)
    return Answer(b"file\nother\n", status=1)


def accepted(kind, file, text, *, form=None, other=None, lines=""):
    """A game whose file is accepted: with its canonical text, its strategic form, which is the text if it
    is not given, and the lines of the renumbering that carries it to the other file. The reduced form of
    a tree is as the form.
    """
    # Files that are equal byte by byte would say little about `same`.
    data, same = file.encode(), (f"{file}\n" if other is None else other).encode()
    written = answer_of(text)
    form = written if form is None else answer_of(form)
    answers = {
        "check": Answer(f"{kind}\n".encode()),
        "canon": written,
        "plain": written if isinstance(text, Answer) else answer_of(without_title(text)),
        "duplicates": duplicated(text, data, same),
        "table": form,
        "same": Answer(b"same\n"),
        "aside": Answer(b"same\n"),
        "map": Answer(f"same\n{lines}".encode()),
    }
    if kind == "tree":
        answers["reduced"] = form
    return Game(data, same, answers)


def refused(file, line):
    """A game whose file is refused, which is the first of the two that are compared too."""
    data, size = file.encode(), len(file)
    # The other file ends a byte later.
    other_line = line.replace(f" {size}..{size}", f" {size + 1}..{size + 1}")
    alone = dict.fromkeys(("check", "canon", "plain", "table"), ended(line))
    compared = dict.fromkeys(("same", "aside", "map"), ended(f"A: {line}"))
    named = {"duplicates": ended(f"file: {line}\nother: {other_line}")}
    return Game(data, data + b"\n", alone | compared | named)


def braced(items):
    """Items in braces, on one line."""
    return " ".join(["{", *items, "}"])


def quoted(labels):
    """Labels without quotation marks as texts."""
    return [f'"{label}"' for label in labels]


def table_text(title, players, strategies, rows):
    """The canonical text of a table: strategies are lists of labels, rows are lines."""
    lists = braced(braced(quoted(labels)) for labels in strategies)
    return f'NFG 1 R "{title}" {braced(quoted(players))}\n{lists}\n""\n\n{rows}'


def tree_text(title, players, nodes):
    """The canonical text of a tree, whose nodes are lines."""
    return f'EFG 2 R "{title}" {braced(quoted(players))}\n""\n\n{nodes}'


def own_lines(player, numbers):
    """The lines by which each set of a player keeps its number."""
    return "".join(f"set {player} {number} {number}\n" for number in numbers)


def only(label, payoff):
    """The canonical text of a table of one player with one strategy."""
    return table_text("", [""], [[label]], f"{payoff}\n")
