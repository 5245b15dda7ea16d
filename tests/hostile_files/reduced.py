"""Trees whose reduced strategies hurt, each with an honest twin."""
import itertools
import random
from fractions import Fraction
from functools import cache, partial

from . import hasher
from .games import Answer, table_text
from .shapes import SEED, SOME_ROWS, sets_below, side_by_side
from .trees import Tree


def full_tree(depth):
    """A move at each node, at one set for each level."""
    tree, due = Tree(1), [0]
    while due:
        level = due.pop()
        if level == depth:
            tree.end(1, 1)
        else:
            tree.move(1, level + 1)
            due += [level + 1] * 2
    # Whatever is chosen before, play comes to each level.
    return tree.game(relevant=True)


def wide_tree(width, depth, sets, **kept):
    """A toss over full trees of moves at some of the sets."""
    rng, tree = random.Random(SEED), Tree(1)
    tree.toss(1, [f"1/{width}"] * width)
    for _ in range(width):
        picked = sorted(rng.sample(range(1, sets + 1), depth))
        for _ in sets_below(tree, lambda number: (1, number), picked):
            outcome = rng.randint(1, 50)
            tree.end(outcome, outcome * 7 % 19 - 9)
    return tree.game(**kept)


def mixed_tree(depth, sets):
    """A full tree of moves at sets that differ from path to path, after a toss over all of them."""
    rng, tree = random.Random(SEED), Tree(1)
    tree.toss(1, ["1/2", "1/2"])
    for number in range(1, sets + 1):
        tree.move(1, number)
        tree.end()
    tree.end()
    due = [frozenset()]
    while due:
        used = due.pop()
        if len(used) == depth:
            tree.end()
        else:
            number = rng.choice([number for number in range(1, sets + 1) if number not in used])
            tree.move(1, number)
            due += [used | {number}] * 2
    return tree.game()


def moves_of_one_action(sets, count):
    """Many moves of one action below each of some others."""
    tree = Tree(1)
    for number in range(1, sets + 1):
        tree.move(1, number)
        for at in range(count):
            tree.move(1, 1000 * number + at, 1)
        tree.end()
    tree.end()
    return tree.game()


def set_never_met(actions, count):
    """A set with many actions, only after two choices that exclude each other, and many sets of one action."""
    tree = Tree(1)
    tree.move(1, 1)
    tree.move(1, 1)
    for number in range(3, count + 3):
        tree.move(1, number, 1)
    tree.end()
    tree.move(1, 2, actions)
    for _ in range(actions + 1):
        tree.end()
    # (the labels of all strategies would be too long)
    labels = ["-".join(["1", *["1"] * count, "*"]), "-".join(["2", *["*"] * count, "*"])]
    form = Answer(table_text("s", tree.players, [labels], "0\n0\n").encode())
    return tree.game(form, without=["table"], relevant=True)


def set_after_a_later_one(actions, count, met=True):
    """After one of two choices play comes to a set with many actions, and after the other one to a later set with as
    many, whose first action leads to the earlier set too, if that is met there. Beside them stand many sets of one
    action, after another choice.
    """
    tree = Tree(1)
    tree.toss(1, ["1/2", "1/2"])
    tree.move(1, 1)
    tree.move(1, 2, actions)
    for _ in range(actions):
        tree.end()
    tree.move(1, 3, actions)
    if met:
        tree.move(1, 2, actions)
    for _ in range(2 * actions - 1 if met else actions):
        tree.end()
    tree.move(1, 4)
    for number in range(5, count + 5):
        tree.move(1, number, 1)
    tree.end()
    tree.end()
    first, others = range(1, actions + 1), range(2, actions + 1)
    # In the order of the first strategies, by the actions at the three sets.
    chosen = [f"1-{action}-*" for action in first]
    if met:
        chosen += ["2-1-1", *(f"2-*-{action}" for action in others), *(f"2-{action}-1" for action in others)]
    else:
        chosen += [f"2-*-{action}" for action in first]
    later = ["-1" * (count + 1), "-2" + "-*" * count]
    labels = [before + after for before in chosen for after in later]
    form = Answer(table_text("s", tree.players, [labels], "0\n" * len(labels)).encode())
    return tree.game(form, without=["table"], relevant=True)


def one_later_set(actions, player):
    """A move with many actions, and after each of them a move of this player, always at the same set."""
    tree = Tree(2)
    tree.move(1, 1, actions)
    for action in range(actions):
        tree.move(player, 2)
        for number in (2 * action % 50 + 1, 2 * action % 50 + 2):
            tree.end(number, number, -number)
    # Whatever is chosen before, play comes to the later set.
    return tree.game(relevant=True)


def set_met_late(trees, depth, sets, late=True):
    """A toss over moves at all sets and over full trees of moves at some, whose leaves are moves at the last set.
    If that one has no move of its own, play comes to it only after moves at others, of which one is the last but
    one."""
    rng, tree = random.Random(SEED), Tree(1)
    tree.toss(1, [Fraction(1, sets + trees)] * (sets + trees))
    for number in range(1, sets + 1):
        if number < sets or not late:
            tree.move(1, number)
            tree.end()
        tree.end()
    for _ in range(trees):
        picked = sorted(rng.sample(range(1, sets - 1), depth - 1))
        for _ in sets_below(tree, lambda number: (1, number), [*picked, sets - 1]):
            tree.move(1, sets)
            tree.end()
            tree.end()
    return tree.game(without=["table"], relevant=True)


def sets_in_conflict(sets):
    """The first nodes of late sets are out of reach, and others come after choices that exclude each other."""
    tree = Tree(1)
    tree.move(1, 1)
    tree.move(1, 2)
    tree.end()
    tree.end()
    tree.toss(1, ["1/3"] * 3)
    for number in range(3, sets + 1):
        tree.move(1, number)
        tree.end()
    tree.end()
    tree.move(1, sets)
    tree.move(1, 2)
    for _ in range(4):
        tree.end()
    return tree.game()


def visits_collide(demands, number):
    """Whether the kit's fast hasher, from its fixed start, puts a visit among the first buckets of a set."""
    return hasher.is_early(hasher.after(hasher.folded(hasher.START, demands, 8), number), 0x2000)


def visits_again(sets, actions, times, collide):
    """Many sets of one action, a move, and after each of its actions a chain of some of them again."""
    rng, tree = random.Random(SEED), Tree(1)
    for number in range(1, sets + 1):
        tree.move(1, number, 1)
    tree.move(1, sets + 1, actions)
    for action in range(1, actions + 1):
        numbers = range(1, sets + 1)
        if collide:
            picked = itertools.islice((it for it in numbers if visits_collide(action, it)), times)
        else:
            picked = rng.sample(numbers, times)
        for number in picked:
            tree.move(1, number, 1)
        tree.end()
    labels = ["-".join([*["1"] * sets, str(action)]) for action in range(1, actions + 1)]
    form = Answer(table_text("s", tree.players, [labels], "0\n" * actions).encode())
    return tree.game(form, without=["table"], relevant=True)


def move_beside_chains(actions, sets, count, times, slow=True):
    """A toss over a move with many actions and some sets to which chance may bring play. After each way to choose at
    some of these stands a chain of sets of one action, and after each action of the move another one. The set of the
    move is the first one or, if it isn't slow, the last."""
    rng, tree = random.Random(SEED), Tree(1)
    tree.toss(1, ["1/2", "1/2"])

    def move():
        tree.move(1, 0, actions)
        for _ in range(actions):
            tree.move(1, -1, 1)
            tree.end()

    if slow:
        move()
    chains, due = [], [(1, {}, False)]
    while due:
        number, chosen, moves = due.pop()
        if moves:
            tree.move(1, number)
            due += [(number + 1, {**chosen, (1, number): action}, False) for action in (2, 1)]
        elif number <= sets:
            tree.toss(1)
            due += [(number + 1, chosen, False), (number, chosen, True)]
        else:
            chain = sorted(rng.sample(range(sets + 1, sets + count + 1), times)) if chosen else []
            chains.append((chosen, {(1, at) for at in chain}))
            for at in chain:
                tree.move(1, at, 1)
            tree.end()
    if not slow:
        move()
    # Chance can bring play to each set of several actions, whatever is chosen, and to that after the move.
    always = {(1, number) for number in range(-1, sets + 1)}

    @cache
    def met(*choices):
        """The sets of one action that are met after these choices at the sets."""
        made = dict(zip(((1, number) for number in range(1, sets + 1)), choices))
        return always.union(*(chain for chosen, chain in chains if chosen.items() <= made.items()))

    labels, owned = [], tree.owned[1][1]
    for strategy in tree.actions(1):
        made = dict(zip(owned, strategy))
        seen = met(*(made[1, number] for number in range(1, sets + 1)))
        labels.append("-".join(str(action) if key in seen else "*" for key, action in made.items()))
    form = Answer(table_text("s", tree.players, [labels], "0\n" * len(labels)).encode())
    return tree.game(form, without=["table"], relevant=True)


# Names with what makes the tree and what makes its twin.
REDUCED = {
    "moves of one action": (partial(moves_of_one_action, 7, 50), SOME_ROWS),
    "sets in conflict": (partial(sets_in_conflict, 12), SOME_ROWS),
    "a full tree": (partial(full_tree, 17), partial(side_by_side, 17)),
    "a mixed tree": (partial(mixed_tree, 12, 16), partial(side_by_side, 16)),
    "a wide tree reduced": (partial(wide_tree, 100, 6, 14), partial(side_by_side, 14)),
    "a move that is forgotten": (partial(one_later_set, 2**17, 1), partial(one_later_set, 2**17, 2)),
    "visits that collide": (
        partial(visits_again, 230_000, 16, 20_000, True),
        partial(visits_again, 230_000, 16, 20_000, False),
    ),
    "a set that is never met": (partial(set_never_met, 2**19, 350_000), partial(set_never_met, 2, 350_000)),
    "a set after a later one": (
        partial(set_after_a_later_one, 512, 5_000),
        partial(set_after_a_later_one, 512, 5_000, met=False),
    ),
    "a set that is met late": (
        partial(set_met_late, 800, 4, 20),
        partial(set_met_late, 800, 4, 20, late=False),
    ),
    "a move beside chains": (
        partial(move_beside_chains, 1024, 7, 100, 90),
        partial(move_beside_chains, 1024, 7, 100, 90, slow=False),
    ),
}
