"""Trees whose strategic form is too slow at full size, which docs/DECISIONS.md lists: at a size that passes, each
with an honest twin.
"""
from functools import partial

from .reduced import wide_tree
from .shapes import LARGEST, MOST_ROWS, many_players, paid_sets, sets_by_chance
from .trees import Tree


def toss_that_never_comes(sets, *payoffs):
    """After a side that never comes up, a toss for two payoffs."""
    tree = Tree(1)
    tree.toss(1, [1, 0])
    paid_sets(tree, sets)
    tree.toss(3, ["1/2", "1/2"])
    for outcome, payoff in enumerate(payoffs, 900):
        tree.end(outcome, payoff)
    return tree.game(relevant=True)


def met_or_not(players, sets):
    """The first outcome, at each demand, pays all players."""
    tree = Tree(players)
    tree.pays(1, *[1] * players)
    sets_by_chance(tree, sets)
    # Chance may bring play to each set, whatever is chosen before.
    return tree.game(relevant=True)


# Names with what makes the tree and what makes its twin.
KNOWN = {
    "a toss that never comes": (
        partial(toss_that_never_comes, 17, LARGEST, -1),
        partial(toss_that_never_comes, 17, 7, -1),
    ),
    "a wide tree": (partial(wide_tree, 500, 8, 20, without=["reduced"]), MOST_ROWS),
    "many players paid at each demand": (partial(met_or_not, 20, 12), partial(many_players, 20, 300)),
}
