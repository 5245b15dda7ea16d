"""Trees whose strategic form hurts, each with an honest twin."""
import itertools
import random
from fractions import Fraction
from functools import partial

from .games import ended
from .trees import Tree

SEED = 1
LARGEST = 2**127 - 1


def paid_sets(tree, sets, first=1, number=2):
    """A toss over some sets of two actions, whose leaves are paid small numbers."""
    tree.toss(number, [f"1/{sets}"] * sets)
    for place in range(first, first + sets):
        tree.move(1, place)
        tree.end(2 * place, place)
        tree.end(2 * place + 1, Fraction(-place, 7))


def side_by_side(sets):
    """A toss over some sets: a form with many rows."""
    tree = Tree(1)
    paid_sets(tree, sets)
    return tree.game(relevant=True)


def payoffs_over(under, sets):
    """A toss over some sets of each of two players, whose payoffs are numbers over this one."""
    rng, tree = random.Random(SEED), Tree(2)
    tree.toss(1, [f"1/{2 * sets}"] * (2 * sets))
    outcomes = itertools.count(1)
    for number in range(1, sets + 1):
        for player in (1, 2):
            tree.move(player, number)
            for _ in range(2):
                payoff = Fraction(rng.randrange(under), under)
                tree.end(next(outcomes), payoff, -payoff)
    return tree.game(relevant=True)


def tosses_that_pay_nobody(sets, deep):
    tree = Tree(1)
    tree.toss(1, ["1/2", "1/2"])
    paid_sets(tree, sets)
    for _ in range(deep):
        tree.toss(1)
        tree.end()
    tree.end()
    return tree.game(relevant=True)


def payoff_that_never_comes(sets, *payoffs):
    """After a side that never comes up, a payoff, or a move with two."""
    tree = Tree(1)
    tree.toss(1, [1, 0])
    paid_sets(tree, sets)
    if len(payoffs) == 2:
        tree.move(1, 1)
    for outcome, payoff in enumerate(payoffs, 900):
        tree.end(outcome, payoff)
    return tree.game(relevant=True)


def many_players(players, width):
    """Many leaves that pay many players."""
    tree = Tree(players)
    tree.pays(1, *range(players))
    tree.toss(1, [f"1/{width}"] * width)
    for _ in range(width):
        tree.toss(2, [f"1/{width}"] * width)
        for _ in range(width):
            tree.end(1)
    return tree.game(relevant=True)


def smooth(count):
    """Divisors of one number, of which each sum of fractions over them is a fraction within the bounds."""
    found = [1]
    for prime, most in ((2, 14), (3, 9), (5, 6), (7, 4), (11, 3), (13, 2), (17, 1), (19, 1), (23, 1)):
        found = [number * prime**power for number in found for power in range(most + 1)]
    return sorted(found)[1 : count + 1]


def tosses_apart(players, width):
    """Tosses that pay all players on one side, each with a denominator of its own."""
    tree = Tree(players)
    tree.pays(1, *[1] * players)
    tree.toss(1, [Fraction(1, 2**20)] * width + [1 - Fraction(width, 2**20)])
    for number, under in enumerate(smooth(width), 2):
        tree.toss(number, [Fraction(1, under), 1 - Fraction(1, under)])
        tree.end(1)
        tree.end()
    tree.end()
    return tree.game(relevant=True)


def actions(count, apart=False):
    """One move with many actions, whose outcome is one, or one for each."""
    tree = Tree(1)
    tree.move(1, 1, count)
    for action in range(count):
        tree.end(action + 1, action) if apart else tree.end(1, 1)
    return tree.game(relevant=True)


def matrix(count, paid):
    """Two moves with many actions, the second at one set."""
    tree = Tree(2)
    tree.move(1, 1, count)
    for row in range(count):
        tree.move(2, 1, count)
        for column in range(count):
            tree.end(*paid(row, column, count))
    return tree.game(relevant=True)


def few_outcomes(row, column, _):
    number = (7 * row + 3 * column) % 50 + 1
    return number, number, -number


def fractions_apart(row, column, count):
    rng = random.Random(row * count + column)
    first = Fraction(rng.randint(-99, 99), rng.randint(1, 999))
    return row * count + column + 1, first, Fraction(rng.randint(1, 9), rng.randint(1, 999))


def primes(count, above):
    """The first primes that are above a number."""
    odd = itertools.count(above | 1, 2)
    prime = (number for number in odd if all(pow(base, number - 1, number) == 1 for base in (2, 3, 5, 7, 11)))
    return list(itertools.islice(prime, count))


def branches_with_denominators(width, sets, slow, denominators):
    """Branches that exclude each other, each with a denominator of its own."""
    tree = Tree(2)
    first, second = (2, 1) if slow else (1, 2)
    tree.move(first, 1, len(denominators))
    for branch, under in enumerate(denominators):
        tree.toss(1, [f"1/{width}"] * width)
        for at in range(width):
            tree.move(second, at % sets + 1)
            for action in (0, 1):
                number = 1 + 14 * branch + at % 7 * 2 + action
                tree.end(number, Fraction(at % 7 + 1 + 3 * action, under), action)
    return tree.game(relevant=True)


def sums_of_denominators(sets, denominators):
    """Sums over sets of four actions each, whose payoffs have denominators of their own."""
    tree = Tree(1)
    tree.toss(1, [f"1/{sets}"] * sets)
    for number in range(sets):
        tree.move(1, number + 1, 4)
        for action in range(4):
            at = 4 * number + action
            tree.end(at + 1, Fraction(action + 1, denominators[at]))
    return tree.game(relevant=True)


def overflow_at_the_last(sets):
    tree = Tree(1)
    for number in range(1, sets + 1):
        tree.move(1, number)
        tree.end(number, number)
    too_much(tree)
    game = tree.game(ended(f"overflow at profile {2**sets}"), relevant=True)
    # The first actions end the play, so there are as many reduced strategies as sets, and one more.
    return game._replace(answers=game.answers | {"reduced": ended(f"overflow at profile {sets + 1}")})


def overflow_at_half(sets):
    tree = Tree(1)
    tree.move(1, 1)
    paid_sets(tree, sets - 1, 2)
    too_much(tree)
    return tree.game(ended(f"overflow at profile {2 ** (sets - 1) + 1}"), relevant=True)


def too_much(tree):
    """The greatest payoff, and one more below it."""
    tree.pays(99, LARGEST)
    tree.toss(1, [1], 99)
    tree.end(98, 1)


def deep_payoff(sets, tosses):
    """A payoff below so many tosses that no common denominator of the numbers on its way fits; below more of
    them, not even what it adds to a row is known to fit."""
    tree = Tree(1)
    tree.toss(1, ["1/2", "1/2"])
    paid_sets(tree, sets)
    for _ in range(tosses):
        tree.toss(1)
        tree.end()
    tree.end(99, 2**40)
    return tree.game(relevant=True)


def largest_payoffs_of_two(sets):
    """Two players are paid the most, so that the sum of bounds does not fit, although each payoff does."""
    tree = Tree(3)
    tree.toss(1, ["1/2", "1/2"])
    tree.toss(2, [f"1/{sets}"] * sets)
    for number in range(1, sets + 1):
        tree.move(3, number)
        tree.end(2 * number, 0, 0, number)
        tree.end()
    tree.toss(1)
    tree.end(98, LARGEST, 0, 0)
    tree.end(99, 0, LARGEST, 0)
    return tree.game(relevant=True)


def sets_below(tree, player_of, sets):
    """A full tree of moves, at these sets, whose leaves are paid."""
    due = [0]
    while due:
        level = due.pop()
        if level == len(sets):
            yield
        else:
            tree.move(*player_of(sets[level]))
            due += [level + 1] * 2


def paid_groups(tree, sets, size, payoffs):
    """A toss over full trees of moves, one for each group of so many of the sets, whose leaves are paid in turn."""
    groups = list(itertools.combinations(range(1, sets + 1), size))
    tree.toss(3, [f"1/{len(groups)}"] * len(groups))
    places = itertools.cycle(range(len(payoffs)))
    for group in groups:
        for _ in sets_below(tree, lambda number: (1, number), group):
            place = next(places)
            tree.end(place + 1, *payoffs[place])


def denominators_beside(sets, size, under):
    """Sums of payoffs with prime denominators, after one of two moves; after the other, a payoff with this one."""
    tree = Tree(2)
    tree.move(2, 1)
    paid_groups(tree, sets, size, [(Fraction(1, prime), 0) for prime in primes(9, 1000)])
    tree.end(10, Fraction(1, under), 0)
    return tree.game(relevant=True, without=["reduced"])


def groups_beside(sets, size, payoff):
    """A form with many rows, and beside it many leaves that are paid this."""
    tree = Tree(1)
    tree.toss(1, ["1/2", "1/2"])
    paid_sets(tree, sets)
    paid_groups(tree, sets, size, [(payoff,)])
    return tree.game(relevant=True, without=["reduced"])


def sets_by_chance(tree, sets):
    """Chance says of each set whether play comes to it, and each leaf has the first outcome: there are as many
    demands as ways to choose or not to choose at each set."""
    due = [1]
    while due:
        step = due.pop()
        if step == sets + 1:
            tree.end(1)
        elif step > 0:
            tree.toss(1, ["1/2", "1/2"])
            due += [-step, step + 1]
        else:
            tree.move(1, -step)
            due += [1 - step] * 2


def move_beside(actions, sets):
    """What is paid at each demand of some sets is paid again beside each action of a move."""
    tree = Tree(2)
    tree.pays(1, 1, 1)
    tree.toss(2, ["1/2", "1/2"])
    tree.move(2, 1, actions)
    for action in range(actions):
        tree.end(2, 3, 2)
    sets_by_chance(tree, sets)
    return tree.game(relevant=True)


def slow_sets_beside(slow, sets):
    """The same beside slower sets of two actions, of which chance picks one."""
    tree = Tree(2)
    tree.pays(1, 1, 1)
    tree.toss(2, ["1/2", "1/2"])
    tree.toss(3, [f"1/{slow}"] * slow)
    for number in range(1, slow + 1):
        tree.move(2, number)
        tree.end(2, 3, 2)
        tree.end(2 + number, 5, number)
    sets_by_chance(tree, sets)
    return tree.game(relevant=True)


def golden():
    """The greatest fraction within the bounds for which Euclid's algorithm takes the most steps."""
    low, high = 1, 1
    while low + high <= LARGEST:
        low, high = high, low + high
    return Fraction(low, high)


def paid_at_the_root(sets, payoff):
    """A toss over some sets whose leaves pay nobody, and which pays this itself: it is each row."""
    tree = Tree(1)
    tree.pays(1, payoff)
    tree.toss(1, [f"1/{sets}"] * sets, 1)
    for number in range(1, sets + 1):
        tree.move(1, number)
        tree.end()
        tree.end()
    return tree.game(relevant=True)


def move_beside_opposites(actions, payoff):
    """A toss over a move with many actions and a toss for a payoff and its opposite: if it is large, the sizes of
    what is added to a row do not fit, although each row does."""
    tree = Tree(1)
    tree.toss(1, ["1/2", "1/2"])
    tree.move(1, 1, actions)
    for _ in range(actions):
        tree.end(1, 1)
    tree.toss(1)
    tree.end(2, payoff)
    tree.end(3, -payoff)
    return tree.game(relevant=True)


def matrix_beside_penalties(count, penalty):
    """A toss over two moves with many actions, the second at one set, and two penalties. If these are large, their
    sizes together do not fit, although each row does."""
    tree = Tree(2)
    tree.toss(1, ["1/2", "1/4", "1/4"])
    tree.move(1, 1, count)
    for row in range(count):
        tree.move(2, 1, count)
        for column in range(count):
            tree.end(*few_outcomes(row, column, count))
    for number in (98, 99):
        tree.end(number, penalty, number)
    return tree.game(relevant=True)


def sets_never_met(sets, count, payoff):
    """A toss over some sets that pays this itself. Many sets of one action come only after two choices that exclude
    each other."""
    tree = Tree(2)
    tree.pays(1, payoff, 0)
    tree.toss(1, [Fraction(1, sets)] * sets, 1)
    tree.move(1, 1)
    tree.move(1, 1)
    tree.end(2, -sets, 1)
    for number in range(1, count + 1):
        tree.move(2, number, 1)
    tree.end()
    tree.end()
    for number in range(2, sets + 1):
        tree.move(1, number)
        tree.end(2)
        tree.end()
    return tree.game(relevant=True)


MOST_ROWS = partial(side_by_side, 20)
LONG_PAYOFFS = partial(payoffs_over, 10**36 + 67, 10)
SOME_ROWS = partial(side_by_side, 12)

# Names with what makes the tree and what makes its twin.
SHAPES = {
    "tosses that pay nobody": (partial(tosses_that_pay_nobody, 20, 1000), MOST_ROWS),
    "a payoff that never comes": (
        partial(payoff_that_never_comes, 20, LARGEST),
        partial(payoff_that_never_comes, 20, 7),
    ),
    "a move that never comes": (
        partial(payoff_that_never_comes, 20, Fraction(1, 10**20 + 39), Fraction(1, 10**28 + 27)),
        partial(payoff_that_never_comes, 20, Fraction(1, 7), Fraction(1, 49)),
    ),
    "long payoffs": (LONG_PAYOFFS, partial(payoffs_over, 10**18 + 9, 10)),
    "fractions apart": (partial(matrix, 300, fractions_apart), partial(side_by_side, 16)),
    "sums of prime denominators": (
        partial(sums_of_denominators, 8, primes(32, 1000)),
        partial(sums_of_denominators, 8, [7] * 32),
    ),
    "many players": (partial(many_players, 1000, 300), partial(many_players, 1, 300)),
    "many players and denominators": (partial(tosses_apart, 10_000, 10_000), partial(tosses_apart, 1, 10_000)),
    "many actions": (partial(actions, 2**17), partial(side_by_side, 17)),
    "many actions paid apart": (partial(actions, 2**17, True), partial(side_by_side, 17)),
    "a matrix": (partial(matrix, 1000, few_outcomes), MOST_ROWS),
    "primes at a slow set": (
        partial(branches_with_denominators, 300, 15, True, primes(5, 10**9)),
        partial(branches_with_denominators, 300, 15, True, [7] * 5),
    ),
    "primes at a fast set": (
        partial(branches_with_denominators, 300, 15, False, primes(5, 10**9)),
        partial(branches_with_denominators, 300, 15, False, [7] * 5),
    ),
    "overflow at the last profile": (partial(overflow_at_the_last, 20), MOST_ROWS),
    "overflow at half of them": (partial(overflow_at_half, 20), MOST_ROWS),
    "a deep payoff": (partial(deep_payoff, 14, 100), partial(side_by_side, 14)),
    "a deeper payoff": (partial(deep_payoff, 18, 139), partial(side_by_side, 18)),
    "the largest payoffs of two": (partial(largest_payoffs_of_two, 14), partial(side_by_side, 14)),
    "a move beside opposites": (
        partial(move_beside_opposites, 2**16, LARGEST),
        partial(move_beside_opposites, 2**16, 7),
    ),
    "a matrix beside penalties": (
        partial(matrix_beside_penalties, 700, -(10**38)),
        partial(matrix_beside_penalties, 700, -7),
    ),
    "sets that are never met": (
        partial(sets_never_met, 13, 300_000, LARGEST),
        partial(sets_never_met, 13, 300_000, 7),
    ),
    "many demands beside a move": (partial(move_beside, 256, 12), MOST_ROWS),
    "many demands beside sets": (partial(slow_sets_beside, 8, 12), MOST_ROWS),
    "a golden payoff": (
        partial(paid_at_the_root, 20, golden()),
        partial(paid_at_the_root, 20, Fraction(LARGEST - 1, LARGEST)),
    ),
}

# The same of shapes that have a short way to the strategic form: the twin has to go the long way.
SHORTER = {
    "one denominator": (partial(denominators_beside, 16, 4, 7), partial(denominators_beside, 16, 4, LARGEST)),
    "payoffs of zero": (partial(groups_beside, 18, 4, 0), partial(groups_beside, 18, 4, 1)),
}
