"""Random games, by their seeds, and how they are spelled: as canonical text, or at random.

`tests/random` works out what the definitions say of them, and `tests/mutated` changes their spellings.
"""
import random
from fractions import Fraction
from itertools import product

# Numerators and denominators are below it.
BOUND = 2**127
GREATEST = Fraction(BOUND - 1)
PAYOFFS = [Fraction(n, d) for n in (-7, -1, 0, 0, 1, 2, 5) for d in (1, 1, 2, 3, 10)]
GREAT = [GREATEST, -GREATEST, GREATEST / 2, Fraction(1, BOUND - 1), Fraction(2**90, 3**40)]
LOTTERIES = {
    1: [[1]],
    2: [["1/2", "1/2"], ["1/3", "2/3"], ["0", "1"], ["0.125", "0.875"]],
    3: [["1/7", "2/7", "4/7"], ["0", "1/2", "1/2"], ["1/1000003", "1/2", "1000001/2000006"]],
}
LABELS = ["", "a", "b", "left", 'say \\"hi\\"', "ä", "two words", "{", "1"]


def within(number):
    return abs(number) < BOUND


class Node:
    """A node: its name, its mover (0 is chance, None if the game ends), his set, the outcome, or
    None, and the children."""

    def __init__(self, name, mover, infoset, outcome):
        self.name, self.mover, self.infoset, self.outcome = name, mover, infoset, outcome
        self.children = []


class Tree:
    """A random game: the players, for each mover his sets as (name, actions), where an action is a
    label and a probability, the outcomes as (name, payoffs), and the nodes in prefix order."""

    def __init__(self, seed):
        chance = random.Random(seed)
        self.title, self.comment = chance.choice(LABELS), chance.choice(["", "a comment"])
        self.players = [chance.choice(LABELS) for _ in range(chance.randrange(4))]
        payoffs = PAYOFFS + (GREAT if seed % 2 else [])
        self.outcomes = [
            (chance.choice(LABELS), [chance.choice(payoffs) for _ in self.players])
            for _ in range(chance.randrange(1, 6))
        ]
        self.sets = [
            [self.infoset(chance, mover) for _ in range(chance.randrange(1, 4))]
            for mover in range(len(self.players) + 1)
        ]
        self.nodes = []
        self.root = self.node(chance)
        left = chance.randrange(1, 13)
        waiting = [self.root]
        while waiting:
            node = waiting.pop()
            self.nodes.append(node)
            if node.mover is not None:
                for _ in self.sets[node.mover][node.infoset][1]:
                    ends = left <= 0 or chance.randrange(3) == 0
                    node.children.append(self.end(chance) if ends else self.node(chance))
                    left -= 1
                waiting.extend(reversed(node.children))

    def infoset(self, chance, mover):
        count = chance.choice([1, 2, 2, 3])
        shares = chance.choice(LOTTERIES[count]) if mover == 0 else [None] * count
        actions = [(chance.choice(LABELS), share and Fraction(share)) for share in shares]
        return chance.choice(LABELS), actions

    def outcome(self, chance):
        return chance.choice([None, *range(len(self.outcomes))])

    def node(self, chance):
        mover = chance.randrange(len(self.sets))
        infoset = chance.randrange(len(self.sets[mover]))
        return Node(chance.choice(["", "", "n"]), mover, infoset, self.outcome(chance))

    def end(self, chance):
        return Node(chance.choice(["", "", "z"]), None, None, self.outcome(chance))

    @staticmethod
    def changed(seed):
        """The same game except for the name of one of its nodes."""
        tree = Tree(seed)
        node = random.Random(-seed).choice(tree.nodes)
        node.name += "x"
        return tree

    def used(self, mover):
        """The sets of a mover in order of first use."""
        return list(dict.fromkeys(n.infoset for n in self.nodes if n.mover == mover))


def quoted(label):
    return f'"{label}"'


def braced(words):
    return " ".join(["{", *words, "}"])


class Speller:
    """Writes games: with a seed in a random spelling, otherwise as canonical text."""

    def __init__(self, seed=None):
        self.chance = None if seed is None else random.Random(seed)

    def number(self, value):
        chance = self.chance
        if chance and chance.randrange(2):
            if 10 ** 6 % value.denominator == 0 and abs(value) < 10**9:
                text = f"{float(value):.6f}" if chance.randrange(2) else f"{int(value * 10**6)}e-6"
                return chance.choice(["", "+"]) + text if value >= 0 else text
            times = chance.choice([2, 3, 30])
            if within(value.numerator * times) and within(value.denominator * times):
                return f"{value.numerator * times}/{value.denominator * times}"
        return str(value)

    def numbers(self, values):
        """Payoffs in braces, now and then with commas."""
        words = list(map(self.number, values))
        if self.chance and words and self.chance.randrange(2):
            words = ", ".join(words).split(" ")
        return braced(words)

    def keys(self, count):
        """Numbers for things in order of first use."""
        if not self.chance:
            return list(range(1, count + 1))
        return self.chance.sample(range(1, 50), count)

    def is_given(self, is_first):
        return is_first or bool(self.chance and self.chance.randrange(4) == 0)

    def text(self, lines):
        if not self.chance:
            return "".join(" ".join(words) + "\n" for words in lines)
        spaces = [" ", "\n", "\t ", "  "]
        return "".join(word + self.chance.choice(spaces) for words in lines for word in words)

    def tree(self, tree):
        sets = [dict(zip(tree.used(m), self.keys(len(tree.used(m))))) for m in range(len(tree.sets))]
        uses = dict.fromkeys(n.outcome for n in tree.nodes if n.outcome is not None)
        outcomes = dict(zip(uses, self.keys(len(uses))))
        known = set()
        lines = [
            ["EFG", "2", "R", quoted(tree.title), braced(map(quoted, tree.players))],
            [quoted(tree.comment)],
            [],
        ]
        for node in tree.nodes:
            words = ["t", quoted(node.name)]
            if node.mover is not None:
                name, actions = tree.sets[node.mover][node.infoset]
                words = ["p", quoted(node.name), str(node.mover)] if node.mover else ["c", quoted(node.name)]
                words.append(str(sets[node.mover][node.infoset]))
                if self.is_given((node.mover, node.infoset) not in known):
                    words.append(quoted(name))
                    words.append(braced(
                        quoted(label) if share is None else f"{quoted(label)} {self.number(share)}"
                        for label, share in actions
                    ))
                known.add((node.mover, node.infoset))
            if node.outcome is None:
                words.append("0")
            else:
                words.append(str(outcomes[node.outcome]))
                if self.is_given(node.outcome not in known):
                    name, payoffs = tree.outcomes[node.outcome]
                    words += [quoted(name), self.numbers(payoffs)]
                known.add(node.outcome)
            lines.append(words)
        return self.text(lines)

    def table(self, title, players, strategies, comment, rows):
        """A table in payoff version."""
        lists = [braced(map(quoted, labels)) for labels in strategies]
        head = ["NFG", "1", "R", quoted(title), braced(map(quoted, players))]
        lines = [head, [braced(lists)], [quoted(comment)], []]
        return self.text(lines + [list(map(self.number, row)) for row in rows])

    def outcome_table(self, title, players, strategies, comment, rows):
        """A table in outcome version, with the null outcome wherever nobody is paid."""
        lists = [braced(map(quoted, labels)) for labels in strategies]
        outcomes = list(dict.fromkeys(tuple(row) for row in rows if any(row)))
        self.chance.shuffle(outcomes)
        told = []
        for payoffs in outcomes:
            told.append("{ " + quoted(self.chance.choice(LABELS)) + self.numbers(payoffs)[1:])
        head = ["NFG", "1", "D", quoted(title), braced(map(quoted, players)), braced(lists)]
        numbers = [str(outcomes.index(tuple(row)) + 1 if any(row) else 0) for row in rows]
        return self.text([head, [quoted(comment)], [braced(told)], numbers])


def random_table(seed):
    """Title, players, strategies, comment and rows of a table."""
    chance = random.Random(seed)
    players = [chance.choice(LABELS) for _ in range(chance.randrange(4))]
    labels = [[chance.choice(LABELS) for _ in range(chance.randrange(1, 4))] for _ in players]
    profiles = product(*labels)
    rows = [[chance.choice(PAYOFFS + GREAT) for _ in players] for _ in profiles]
    return chance.choice(LABELS), players, labels, chance.choice(["", "a comment"]), rows
