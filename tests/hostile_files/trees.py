"""Trees as they are added node by node, and their strategic form by definition.

A payoff is the sum over the plays that a profile allows, weighted by the probabilities of chance. Of a
form with many rows only some are worked out.
"""
import itertools
import random
from fractions import Fraction
from functools import cached_property
from math import prod

from .games import Answer, Game, Rows, braced, table_text, tree_text

SEED = 1
# The most profiles of a form of which all rows are worked out, and how many of another one are.
MANY = 1_000
SAMPLE = 40


class Product:
    """The lists of one number from 1 to each of these, in the order of itertools.product, one at a time."""

    def __init__(self, counts):
        self.counts = counts

    def __len__(self):
        return prod(self.counts)

    def __getitem__(self, place):
        found = []
        for count in reversed(self.counts):
            place, number = divmod(place, count)
            found.append(number + 1)
        return found[::-1]


class Tree:
    """A tree as its nodes are added in prefix order; a set or an outcome is described by its first use."""

    def __init__(self, players):
        self.players = [f"P{number}" for number in range(players)]
        self.nodes = []
        # By owner, chance being 0, and number: the probabilities of a set, or as many times None.
        self.sets = {}
        self.outcomes = {}

    def move(self, player, number, actions=2, outcome=0):
        self.sets.setdefault((player, number), [None] * actions)
        self.nodes.append(((player, number), outcome))

    def toss(self, number, sides=(), outcome=0):
        self.sets.setdefault((0, number), [Fraction(side) for side in sides])
        self.nodes.append(((0, number), outcome))

    def end(self, outcome=0, *payoffs):
        if outcome:
            self.pays(outcome, *payoffs)
        self.nodes.append((None, outcome))

    def pays(self, outcome, *payoffs):
        self.outcomes.setdefault(outcome, [Fraction(payoff) for payoff in payoffs])

    def text(self):
        """The canonical text."""
        known, lines = {}, []
        # What of each player has a number so far, and of the outcomes.
        counts = {}

        def use(owner, key, described):
            if key in known:
                return known[key]
            counts[owner] = counts.get(owner, 0) + 1
            known[key] = str(counts[owner])
            return f'{known[key]} "" {braced(described)}'

        for owned, outcome in self.nodes:
            line = 't ""'
            if owned:
                labels = ('""' if side is None else f'"" {side}' for side in self.sets[owned])
                owner = owned[0]
                used = use(owner, owned, labels)
                line = f'p "" {owner} {used}' if owner else f'c "" {used}'
            paid = use("outcome", ("outcome", outcome), map(str, self.outcomes[outcome])) if outcome else 0
            lines.append(f"{line} {paid}\n")
        return tree_text("s", self.players, "".join(lines))

    @cached_property
    def owned(self):
        """The sets of chance and of each player, in order of first use."""
        found = [(owner, []) for owner in range(len(self.players) + 1)]
        for key in self.sets:
            found[key[0]][1].append(key)
        return found

    @cached_property
    def children(self):
        """The children of each node."""
        found, due = [[] for _ in self.nodes], []
        for at, (owned, _) in enumerate(self.nodes):
            if due:
                parent = due[-1]
                found[parent].append(at)
                if len(found[parent]) == len(self.sets[self.nodes[parent][0]]):
                    due.pop()
            if owned:
                due.append(at)
        return found

    def payoffs(self, chosen):
        """What each player is paid if these actions, from 1, are chosen at the sets."""
        weights, due = {}, [(0, Fraction(1))]
        while due:
            at, weight = due.pop()
            owned, outcome = self.nodes[at]
            if outcome:
                weights[outcome] = weights.get(outcome, 0) + weight
            if owned in chosen:
                due.append((self.children[at][chosen[owned] - 1], weight))
            elif owned:
                due += [(child, weight * side) for child, side in zip(self.children[at], self.sets[owned]) if side]
        paid = [[weight * payoff for payoff in self.outcomes[outcome]] for outcome, weight in weights.items()]
        return [sum(payoffs) for payoffs in zip([0] * len(self.players), *paid)]

    def relevant(self, chosen):
        """The sets to which play can come if a player chooses these actions at his."""
        found, due = set(), [0]
        while due:
            at = due.pop()
            owned, _ = self.nodes[at]
            found.add(owned)
            due += [self.children[at][chosen[owned] - 1]] if owned in chosen else self.children[at]
        return found

    def actions(self, player):
        """The actions of each strategy of a player, at his sets in order of first use."""
        return itertools.product(*(range(1, len(self.sets[key]) + 1) for key in self.owned[player][1]))

    def labels(self, player):
        """The labels of a player's strategies."""
        numbers = ([str(action) for action in range(1, len(self.sets[key]) + 1)] for key in self.owned[player][1])
        return map("-".join, itertools.product(*numbers))

    def reduced(self, player):
        """The reduced strategies of a player by their labels, each with the actions of one that it stands for."""
        owned, found = self.owned[player][1], {}
        for actions in self.actions(player):
            seen = self.relevant(dict(zip(owned, actions)))
            label = "-".join(str(action) if key in seen else "*" for key, action in zip(owned, actions))
            found.setdefault(label, actions)
        return found

    def form(self, reduced=False):
        """The form, or the reduced one, with all of its rows or with some."""
        players = range(1, len(self.players) + 1)
        if reduced:
            strategies = [self.reduced(player) for player in players]
            choices = [list(actions.values()) for actions in strategies]
        else:
            strategies = map(self.labels, players)
            choices = [Product([len(self.sets[key]) for key in self.owned[player][1]]) for player in players]
        head = table_text("s", self.players, strategies, "")
        count = prod(map(len, choices))
        if count <= MANY:
            places = range(count)
        else:
            places = {0, count - 1, *random.Random(SEED).sample(range(count), SAMPLE)}
        return Answer(Rows(head.encode(), count, {place: self.row(choices, place) for place in places}))

    def row(self, choices, place):
        """The line of a profile: the first player's strategy advances fastest."""
        chosen = {}
        for player, strategies in enumerate(choices, 1):
            place, at = divmod(place, len(strategies))
            chosen |= zip(self.owned[player][1], strategies[at])
        return " ".join(map(str, self.payoffs(chosen))).encode()

    def game(self, form=None, without=(), relevant=False):
        """The game, of which only the forms are made: without some, and with a reduced form that is its form if
        all is relevant. The other commands are no slower on a tree than on those of files.py.
        """
        text = self.text().encode()
        form = form or self.form()
        answers = {"table": form, "reduced": form}
        if not relevant and "reduced" not in without:
            answers["reduced"] = self.form(reduced=True)
        return Game(text, text, {command: answers[command] for command in answers if command not in without})
