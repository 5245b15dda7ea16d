"""Trees that use thousands of sets or outcomes again and again, by numbers whose hashes would be alike if
the hasher of a map had a fixed start, and by any numbers.
"""
import itertools
import random

from . import hasher
from .games import accepted, fitting, only, tree_text

SEED = 1
# How many sets or outcomes a tree has.
MET_AGAIN = 40_000


def colliding(player, size):
    """Numbers that a map from keys of so many bytes, those of a player if they are sets, would have among its first
    buckets if its hasher began as the kit's does."""

    def is_early(number):
        return hasher.is_early(hasher.after_key(hasher.START, player << 32 | number, size), 0x200)

    return list(itertools.islice(filter(is_early, itertools.count(10**9)), MET_AGAIN))


def scattered():
    """As many other numbers."""
    return random.Random(SEED).sample(range(10**9, 2**32), MET_AGAIN)


def sets_met_again(numbers):
    """One move below another, first at each set, and then at any of them again."""
    uses = random.Random(SEED).choices(range(len(numbers)), k=fitting(50 * len(numbers), 'p""1 1000000000 0\n'))

    def moves(given):
        first = "".join(f'p "" 1 {number} "" {{ "on" }} 0\n' for number in given)
        return first + "".join(f'p "" 1 {given[use]} 0\n' for use in uses) + 't "" 0\n'

    file = f'EFG 2 R ""{{""}}{moves(numbers).replace(chr(34) + " ", chr(34))}'
    text = tree_text("", [""], moves(range(1, len(numbers) + 1)))
    lines = "".join(f"set 1 {number} {place}\n" for place, number in enumerate(numbers, 1))
    form = only("-".join("1" * len(numbers)), 0)
    return accepted("tree", file, text, form=form, other=text, lines=lines)


def colliding_sets():
    """Sets of player 1 whose hashes would be alike."""
    return sets_met_again(colliding(1, 8))


def scattered_sets():
    """The same with any numbers."""
    return sets_met_again(scattered())


def outcomes_met_again(numbers):
    """One move below another, first with each outcome, which pays 1, and then with any of them again."""
    uses = random.Random(SEED).choices(range(len(numbers)), k=fitting(50 * len(numbers), 'p""1 1 1000000000\n'))

    def moves(given):
        first = "".join(f'p "" 1 1 {number} "" {{ 1 }}\n' for number in given[1:])
        again = "".join(f'p "" 1 1 {given[use]}\n' for use in uses)
        return f'p "" 1 1 "" {{ "on" }} {given[0]} "" {{ 1 }}\n{first}{again}t "" 0\n'

    file = f'EFG 2 R ""{{""}}{moves(numbers).replace(chr(34) + " ", chr(34))}'
    text = tree_text("", [""], moves(range(1, len(numbers) + 1)))
    outcomes = "".join(f"outcome {number} {place}\n" for place, number in enumerate(numbers, 1))
    form = only("1", len(numbers) + len(uses))
    return accepted("tree", file, text, form=form, other=text, lines=f"set 1 1 1\n{outcomes}")


def colliding_outcomes():
    """Outcomes whose hashes would be alike."""
    return outcomes_met_again(colliding(0, 4))


def scattered_outcomes():
    """The same with any numbers."""
    return outcomes_met_again(scattered())
