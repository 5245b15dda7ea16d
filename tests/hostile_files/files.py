"""Files of up to 16 MiB that are made to hurt a reader, each with an honest twin, and their answers.

Each is a function of its parameters and of SEED alone. It spells a file as short as the format
allows, and by itself what the program has to write of it.
"""
import itertools
import random
from fractions import Fraction
from functools import partial
from math import gcd

from .games import LIMIT, accepted, braced, ended, fitting, only, own_lines, quoted, refused
from .games import table_text, tree_text
from .met_again import colliding_outcomes, colliding_sets, scattered_outcomes, scattered_sets

SEED = 1
LARGEST = 2**127 - 1


# Tables --------------------------------------------------------------------------------------------


def plain_table():
    """Two players, a million profiles, and whole numbers."""
    rng = random.Random(SEED)
    payoffs = [str(payoff) for payoff in rng.choices(range(-99_999, 100_000), k=2 * 2**20)]
    head = 'NFG 1 R "Plain" { "Row" "Column" } { 1024 1024 }'
    rows = "".join(f"{row} {column}\n" for row, column in zip(payoffs[::2], payoffs[1::2]))
    text = table_text("Plain", ["Row", "Column"], [range(1, 1025)] * 2, rows)
    return accepted("table", " ".join([head, *payoffs]), text)


def cut_table():
    """The same without its last payoff."""
    file = plain_table().file.decode().rpartition(" ")[0]
    return refused(file, f"E3 at {len(file)}..{len(file)}")


def without_players(title):
    """The canonical text of a table without players."""
    return table_text(title, [], [], "\n")


def one_label(unit):
    """A title that fills the file."""
    title = unit * fitting(len('NFG 1 R ""{}{}'), unit)
    return accepted("table", f'NFG 1 R "{title}"{{}}{{}}', without_players(title))


def open_label():
    """A title of quotation marks that does not end."""
    return refused('NFG 1 R "' + '\\"' * 8_000_000, "E2 at 8..9")


def one_number():
    """A payoff of sixteen million digits that is 1."""
    head = 'NFG 1 R ""{""}{1}'
    file = head + "1".zfill(fitting(len(head), "0"))
    return accepted("table", file, table_text("", [""], [[1]], "1\n"))


def one_large_number():
    """A payoff of sixteen million digits that is too large."""
    head = 'NFG 1 R ""{""}{1}'
    file = head + "9" * fitting(len(head), "9")
    return refused(file, f"E6 at {len(head)}..{len(file)}")


def marks_alone(mark, line):
    """One mark and nothing else after the title, or as the title."""
    return refused('NFG 1 R ""' + mark * fitting(10, mark), line)


def players_of_quotes():
    """Millions of players in a table, each with one strategy and a payoff."""
    count = fitting(20, '""', "1 ", "0 ")
    file = f'NFG 1 R ""{{{count * chr(34) * 2}}}{{{"1 " * count}}}{"0 " * count}'
    return accepted("table", file, many_players(count, "1", "0"))


def payoffs_with_commas():
    """Millions of payoffs of one outcome, each with a comma."""
    count = fitting(30, '""', "1 ", "7,")
    file = f'NFG 1 R ""{{{count * chr(34) * 2}}}{{{"1 " * count}}}{{{{""{"7," * count}}}}}1'
    return accepted("table", file, many_players(count, "1", "7"))


def many_players(count, strategy, payoff):
    """The canonical text of a table of many players with empty names and one strategy each."""
    strategies = f'{{ "{strategy}" }} ' * count
    row = f"{payoff} " * count
    return f'NFG 1 R "" {unnamed(count)}\n{{ {strategies}}}\n""\n\n{row[:-1]}\n'


def unnamed(count):
    """A list of so many players with empty names, as it is written."""
    return "{ " + '"" ' * count + "}"


def outcomes_of_nobody():
    """Millions of outcomes without a payoff."""
    outcome = '{""}'
    file = f'NFG 1 R ""{{}}{{}}{{{outcome * fitting(30, outcome)}}}1'
    return accepted("table", file, without_players(""))


def outcomes_of_one():
    """Millions of outcomes with one payoff."""
    outcome = '{""7}'
    file = f'NFG 1 R ""{{""}}{{1}}{{{outcome * fitting(30, outcome)}}}1'
    return accepted("table", file, table_text("", [""], [[1]], "7\n"))


def most_strategies():
    """As many strategies as a table may have profiles."""
    count = 2**20
    file = f'NFG 1 R ""{{""}}{{{count}}}' + " 0" * count
    return accepted("table", file, table_text("", [""], [range(1, count + 1)], "0\n" * count))


def shared_rows(players, rows, numbers):
    """A table of a million profiles in outcome version, with these payoffs of outcomes."""
    counts = " ".join(["2"] * 20 + ["1"] * (players - 20))
    outcomes = "".join(f'{{""{row}}}' for row in rows)
    chosen = " ".join(map(str, itertools.islice(numbers, 2**20)))
    return f'NFG 1 R ""{{{chr(34) * 2 * players}}}{{{counts}}}{{{outcomes}}}{chosen}'


def too_large_a_text(file, other):
    """A table whose canonical text no memory holds, and which is the same as another."""
    text = ended(f"E19 at {len(file)}..{len(file)}", 5)
    return accepted("table", file, text, form=ended("E19", 5), other=other)


def million_players():
    """10^12 payoffs, in three rows that all profiles share."""
    rows = ["0 " * 999_999 + last for last in "78"]
    file = shared_rows(10**6, rows, itertools.cycle([1, 2, 0, 2]))
    other = shared_rows(10**6, rows[::-1], itertools.cycle([2, 1, 0, 1]))
    return too_large_a_text(file, other)


def crossing_rows():
    """10^9 payoffs, in a thousand rows each that meet in a million pairs."""
    rows = ["7 " * 1000] * 1000
    file = shared_rows(1000, rows, itertools.cycle(range(1, 1001)))
    crossed = (1 + (at + at // 1000) % 1000 for at in itertools.count())
    return too_large_a_text(file, shared_rows(1000, rows, crossed))


def payoffs_of(numbers):
    """A table of one player who is paid these numbers, each given with how it is spelled."""
    count = len(numbers)
    file = f'NFG 1 R ""{{""}}{{{count}}}' + "".join(f" {spelling}" for _, spelling in numbers)
    rows = "".join(f"{number}\n" for number, _ in numbers)
    return accepted("table", file, table_text("", [""], [range(1, count + 1)], rows))


def short_fractions():
    """A million fractions and decimals of a few digits."""
    rng = random.Random(SEED)
    numbers = []
    for _ in range(2**19):
        size, under, decimal = rng.randint(-99_999, 99_999), rng.randint(1, 9_999), rng.randint(10_000, 99_999)
        numbers.append((lowest(size, under), f"{size}/{under}"))
        numbers.append((lowest(decimal, 10**8), f"0.000{decimal}"))
    return payoffs_of(numbers)


def lowest(size, under):
    """A fraction in lowest terms, as it is written: by Fraction this takes three times as long."""
    common = gcd(size, under)
    return f"{size // common}/{under // common}" if under != common else str(size // common)


def long_decimals():
    """Decimals of 38 digits."""
    rng = random.Random(SEED)
    digits = [rng.randrange(10**37, 10**38) for _ in range(400_000)]
    return payoffs_of([(lowest(number, 10**38), f".{number}") for number in digits])


def quotients(pairs):
    """Fractions of these parts."""
    return payoffs_of([(lowest(size, den), f"{size}/{den}") for size, den in pairs])


def large_fractions():
    """Fractions of 127 bits that have much in common."""
    rng = random.Random(SEED)
    common = [rng.randrange(2**62, 2**63) for _ in range(200_000)]
    return quotients([(part * rng.randrange(2**63), part * rng.randrange(1, 2**63)) for part in common])


def golden_fractions():
    """Fractions of 127 bits for which Euclid's algorithm takes the most steps."""
    fibonacci = [1, 1]
    while fibonacci[-1] + fibonacci[-2] <= LARGEST:
        fibonacci.append(fibonacci[-1] + fibonacci[-2])
    return quotients([(fibonacci[-2], fibonacci[-1])] * 200_000)


# Trees ---------------------------------------------------------------------------------------------


def plain_tree(width=750, count=8):
    """Two tosses with many sides, and then one of a few moves, whose outcomes differ.

    The player is paid the number of the set for his first action at it, and half of it for the other.
    """
    sides = braced([f'"" 1/{width}'] * width)
    nodes = [f'c "" 1 "" {sides} 0\n']
    for row, column in itertools.product(range(width), repeat=2):
        if column == 0:
            nodes.append('c "" 2 0\n' if row else f'c "" 2 "" {sides} 0\n')
        number = column % count + 1
        first, second = 2 * number - 1, 2 * number
        if row == 0 and column < count:
            nodes.append(f'p "" 1 {number} "" {{ "a" "b" }} 0\n')
            nodes.append(f't "" {first} "" {{ {number} }}\nt "" {second} "" {{ {Fraction(number, 2)} }}\n')
        else:
            nodes.append(f'p "" 1 {number} 0\nt "" {first}\nt "" {second}\n')
    text = tree_text("", [""], "".join(nodes))
    # How likely each set is.
    shares = [Fraction(len(range(number - 1, width, count)), width) for number in range(1, count + 1)]
    strategies = list(itertools.product((1, 2), repeat=count))
    labels = ["-".join(map(str, actions)) for actions in strategies]
    rows = ""
    for actions in strategies:
        paid = (share * number / action for number, (share, action) in enumerate(zip(shares, actions), 1))
        rows += f"{sum(paid)}\n"
    lines = own_lines(0, [1, 2]) + own_lines(1, range(1, count + 1)) + own_outcomes(2 * count)
    return accepted("tree", text, text, form=table_text("", [""], [labels], rows), lines=lines)


def own_outcomes(count):
    """The lines by which each outcome keeps its number."""
    return "".join(f"outcome {number} {number}\n" for number in range(1, count + 1))


def cut_tree():
    """The same without its last node."""
    file = plain_tree().file.decode().removesuffix('t "" 12\n')
    return refused(file, f"E3 at {len(file)}..{len(file)}")


def tree_of(nodes, text, form, lines):
    """A tree of one player, by nodes as they are spelled and as they are written."""
    return accepted("tree", f'EFG 2 R ""{{""}}{nodes}', tree_text("", [""], text), form=form, lines=lines)


def nested_moves():
    """A million and more moves, each below the other, at one set."""
    count = fitting(60, 'p""1 1 0\n')
    file = 'p""1 1""{""}0\n' + 'p""1 1 0\n' * (count - 1) + 't""0'
    text = 'p "" 1 1 "" { "" } 0\n' + 'p "" 1 1 0\n' * (count - 1) + 't "" 0\n'
    return tree_of(file, text, only("1", 0), own_lines(1, [1]))


def tree_players(count=4_000_000):
    """Millions of players without a set."""
    file = f'EFG 2 R ""{{{chr(34) * 2 * count}}}t""0'
    text = f'EFG 2 R "" {unnamed(count)}\n""\n\nt "" 0\n'
    return accepted("tree", file, text, form=many_players(count, "", "0"))


def players_with_sets():
    """Most of a million players with a set each."""
    numbers = range(1, fitting(20, '""', 'p""123456 1""{""}0\n') + 1)
    moves = "".join(f'p""{player} 1""{{""}}0\n' for player in numbers)
    nodes = "".join(f'p "" {player} 1 "" {{ "" }} 0\n' for player in numbers)
    lines = "".join(f"set {player} 1 1\n" for player in numbers)
    file = f'EFG 2 R ""{{{chr(34) * 2 * len(numbers)}}}{moves}t""0'
    text = tree_text("", [""] * len(numbers), nodes + 't "" 0\n')
    form = many_players(len(numbers), "1", "0")
    return accepted("tree", file, text, form=form, lines=lines)


def sets_of_one():
    """Most of a million sets of one player."""
    numbers = range(1, fitting(30, 'p""1 123456""{""}0\n') + 1)
    file = "".join(f'p""1 {number}""{{""}}0\n' for number in numbers) + 't""0'
    text = "".join(f'p "" 1 {number} "" {{ "" }} 0\n' for number in numbers) + 't "" 0\n'
    return tree_of(file, text, only("-".join("1" * len(numbers)), 0), own_lines(1, numbers))


def nested_outcomes():
    """Most of a million moves, each below the other, with an outcome of its own that pays 1."""
    numbers = range(2, fitting(40, 'p""1 1 123456""{1}\n') + 1)
    file = 'p""1 1""{""}1""{1}\n' + "".join(f'p""1 1 {number}""{{1}}\n' for number in numbers) + 't""0'
    nodes = "".join(f'p "" 1 1 {number} "" {{ 1 }}\n' for number in numbers)
    text = f'p "" 1 1 "" {{ "" }} 1 "" {{ 1 }}\n{nodes}t "" 0\n'
    count = len(numbers) + 1
    return tree_of(file, text, only("1", count), own_lines(1, [1]) + own_outcomes(count))


def wide_move():
    """Millions of actions at one move."""
    count = fitting(40, '""', 't""0\n')
    file = f'p""1 1""{{{chr(34) * 2 * count}}}0\n' + 't""0\n' * count
    text = f'p "" 1 1 "" {braced(quoted([""] * count))} 0\n' + 't "" 0\n' * count
    return tree_of(file, text, ended("too many profiles"), own_lines(1, [1]))


def lottery(sides, leaves=None):
    """One toss with these probabilities, and what the outcome of each side is."""
    leaves = leaves or ["0"] * len(sides)
    file = 'c""1""{' + "".join(f'""{side}' for side in sides) + "}0\n" + "".join(f't""{leaf}\n' for leaf in leaves)
    spread = [leaf.replace('""', ' "" ').replace("{", "{ ").replace("}", " }") for leaf in leaves]
    listed = braced(f'"" {side}' for side in sides)
    text = f'c "" 1 "" {listed} 0\n' + "".join(f't "" {leaf}\n' for leaf in spread)
    described = sum('""' in leaf for leaf in leaves)
    return tree_of(file, text, only("", 1 if described else 0), own_lines(0, [1]) + own_outcomes(described))


def million_sides():
    """A million equal probabilities."""
    return lottery([f"1/{10**6}"] * 10**6)


def sure_side():
    """One sure side of millions."""
    return lottery(["1"] + ["0"] * fitting(40, '""0', 't""0\n'))


def sides_paid_apart():
    """Half a million equal probabilities, each with an outcome of its own that pays 1."""
    count = 500_000
    return lottery([f"1/{count}"] * count, [f'{number}""{{1}}' for number in range(1, count + 1)])


def tosses(lists):
    """One toss below the last side of another, with these lists of probabilities, and no payoffs."""
    file, text = [], []
    for number, sides in enumerate(lists, 1):
        file.append(f'c""{number}""{{' + "".join(f'""{side}' for side in sides) + "}0\n" + 't""0\n' * (len(sides) - 1))
        listed = braced(f'"" {side}' for side in sides)
        text.append(f'c "" {number} "" {listed} 0\n' + 't "" 0\n' * (len(sides) - 1))
    lines = own_lines(0, range(1, len(lists) + 1))
    return tree_of("".join([*file, 't""0']), "".join([*text, 't "" 0\n']), only("", 0), lines)


def halves():
    """Lists of a half, a quarter and so on, as far as denominators go."""
    sides = [f"1/{2**power}" for power in range(1, 127)] + [f"1/{2**126}"]
    return tosses([sides] * (LIMIT // (sum(len(side) + 7 for side in sides) + 20)))


def coprime_sums():
    """Lists of probabilities of 126 bits whose sums have 63 bits, with nothing in common."""
    rng = random.Random(SEED)
    lists = []
    for _ in range(1500):
        sides, sum_so_far = [], Fraction(0)
        for at in range(1, 100):
            under = rng.randrange(2**62, 2**63)
            if gcd(under, sum_so_far.denominator) == 1:
                following = Fraction(under * at // 100, under)
                if following > sum_so_far:
                    sides.append(following - sum_so_far)
                    sum_so_far = following
        lists.append([*sides, 1 - sum_so_far])
    return tosses(lists)


def equal_sides(size=100):
    """Lists of equal probabilities."""
    sides = [f"1/{size}"] * size
    return tosses([sides] * (LIMIT // (sum(len(side) + 7 for side in sides) + 20)))


def actions_again(count=100):
    """A list of many actions that is given again at each move, each below the last action of another."""
    labels = [f"action {number}" for number in range(1, count + 1)]
    given = f'p""1 1""{{{"".join(quoted(labels))}}}0\n' + 't""1\n' * (count - 1)
    times = fitting(100 + len(given), given)
    first = given.replace('t""1\n', 't""1""{7}\n', 1)
    file = first + given * times + 't""1'
    leaves = 't "" 1 "" { 7 }\n' + 't "" 1\n' * (count - 2)
    text = f'p "" 1 1 "" {braced(quoted(labels))} 0\n{leaves}'
    text += ('p "" 1 1 0\n' + 't "" 1\n' * (count - 1)) * times + 't "" 1\n'
    form = table_text("", [""], [range(1, count + 1)], "7\n" * count)
    return tree_of(file, text, form, own_lines(1, [1]) + own_outcomes(1))


def sides_again(count=100):
    """A list of many probabilities that is given again at each toss, in which each leaf pays 7."""
    given = 'c""1""{' + f'""1/{count}' * count + "}0\n" + 't""1\n' * (count - 1)
    times = fitting(100 + len(given), given)
    file = given.replace('t""1\n', 't""1""{7}\n', 1) + given * times + 't""1'
    listed = braced([f'"" 1/{count}'] * count)
    text = f'c "" 1 "" {listed} 0\nt "" 1 "" {{ 7 }}\n' + 't "" 1\n' * (count - 2)
    text += ('c "" 1 0\n' + 't "" 1\n' * (count - 1)) * times + 't "" 1\n'
    return tree_of(file, text, only("", 7), own_lines(0, [1]) + own_outcomes(1))


# Names with what makes the file and what makes its twin.
FILES = {
    "one label": (partial(one_label, "a"), plain_table),
    "one label of quotes": (partial(one_label, '\\"'), plain_table),
    "one label without end": (open_label, cut_table),
    "one number": (one_number, plain_table),
    "one large number": (one_large_number, cut_table),
    "quotes": (partial(marks_alone, '"', "E3 at 10..12"), cut_table),
    "opening braces": (partial(marks_alone, "{", "E3 at 11..12"), cut_table),
    "closing braces": (partial(marks_alone, "}", "E3 at 10..11"), cut_table),
    "commas": (partial(marks_alone, ",", "E3 at 10..11"), cut_table),
    "players of quotes": (players_of_quotes, plain_table),
    "payoffs with commas": (payoffs_with_commas, plain_table),
    "outcomes of nobody": (outcomes_of_nobody, plain_table),
    "outcomes of one": (outcomes_of_one, plain_table),
    "most strategies": (most_strategies, plain_table),
    "a million players": (million_players, plain_table),
    "crossing rows": (crossing_rows, plain_table),
    "long decimals": (long_decimals, short_fractions),
    "large fractions": (large_fractions, short_fractions),
    "golden fractions": (golden_fractions, short_fractions),
    "a tree without its end": (cut_tree, cut_table),
    "nested moves": (nested_moves, plain_tree),
    "players of a tree": (tree_players, plain_tree),
    "players with a set each": (players_with_sets, plain_tree),
    "sets of one player": (sets_of_one, plain_tree),
    "colliding sets": (colliding_sets, scattered_sets),
    "colliding outcomes": (colliding_outcomes, scattered_outcomes),
    "nested outcomes": (nested_outcomes, plain_tree),
    "a wide move": (wide_move, plain_tree),
    "a million sides": (million_sides, plain_tree),
    "a sure side": (sure_side, plain_tree),
    "sides paid apart": (sides_paid_apart, plain_tree),
    "halves": (halves, equal_sides),
    "coprime sums": (coprime_sums, equal_sides),
    "actions again": (actions_again, plain_tree),
    "sides again": (sides_again, plain_tree),
}
