"""Whether the order of a race matters: what the runs of each order show, and how sure that is.

A program may end in several ways by itself. So an order counts only if all its runs end in one way. Two orders that
share one distribution of endings look different with n runs each at most 2 times in 4^n. The number of runs keeps the
chance of a wrong `matters` below RATE, also if several orders and several words of the output are compared.
"""
import itertools
import re
from typing import Dict, List, NamedTuple, Optional, Set, Tuple

# How often `matters` may be wrong.
RATE = 0.001
# This many runs of each order at most; with more words that vary it is not known.
MOST_RUNS = 16
# So much of a word that differs is shown.
SHOWN = 40

# The endings of a run that did not come to both accesses after the race stood, and of one that nothing ended.
GONE, HANGS = "departed", "hangs"

IS_GONE = "a run departed after the race stood"
IS_ENDLESS = "nothing ended the program"
ENDINGS_VARY = "the endings vary by themselves"
OUTPUTS_VARY = "the outputs vary by themselves"
ENDINGS_DIFFER = "the endings differ"


class Outcome(NamedTuple):
    """What a run came to: how it ended, and what it printed."""

    ending: str
    output: bytes


Orders = Dict[str, List[Outcome]]
Words = List[Set[object]]


class Verdict(NamedTuple):
    """Whether the order matters, or None if that is not known; why; and whether more runs may decide it."""

    matters: Optional[bool]
    why: str
    wants_more: bool


class Difference(NamedTuple):
    """Two orders, and a value of the outputs that is always one in the first and another in the second."""

    first: str
    second: str
    values: Tuple[object, object]


def runs_needed(comparisons: int, features: int = 1) -> int:
    """How many runs of each order keep the rate of wrong verdicts, for this many compared pairs of orders and
    features."""
    runs = 1
    while comparisons * features * 2.0 ** (1 - 2 * runs) > RATE:
        runs += 1
    return runs


def count_of(orders: Orders) -> int:
    """How many runs each order has at least."""
    return min(len(outcomes) for outcomes in orders.values())


def only_values(orders: Dict[str, Set[object]]) -> Dict[str, object]:
    """The orders that have one value only, each with the value."""
    return {name: next(iter(values)) for name, values in orders.items() if len(values) == 1}


def first_difference(orders: Dict[str, Set[object]]) -> Optional[Difference]:
    """Two orders that have one value each, and another one."""
    pairs = itertools.combinations(only_values(orders).items(), 2)
    return next((Difference(one, other, (a, b)) for (one, a), (other, b) in pairs if a != b), None)


def words_of(outputs: Set[bytes]) -> Words:
    """The set of words at each place of the outputs, and last the set of their numbers of words."""
    split = [re.split(rb"(\s+)", output + b"\n") for output in outputs]
    places: Words = [set(there) for there in zip(*split)]
    return places + [{len(words) // 2 for words in split}]


def features_of(words: Dict[str, Words]) -> List[Dict[str, Set[object]]]:
    """For each place that all outputs have, and for the number of words, its values in each order."""
    places = min(len(each) for each in words.values()) - 1
    found = [{name: each[place] for name, each in words.items()} for place in range(places)]
    return found + [{name: each[-1] for name, each in words.items()}]


def is_word(difference: Difference) -> bool:
    """Whether both values are words: neither blanks nor a number of words."""
    return all(isinstance(value, bytes) and bool(value.strip()) for value in difference.values)


def by_words(orders: Orders) -> Tuple[Optional[Difference], int]:
    """A word that differs between two orders, and how many features vary or differ."""
    words = {name: words_of({one.output for one in outcomes}) for name, outcomes in orders.items()}
    features = [each for each in features_of(words) if len(set().union(*each.values())) > 1]
    differences = [found for found in map(first_difference, features) if found]
    return next(filter(is_word, differences), differences[0] if differences else None), max(1, len(features))


def shown(value: object) -> str:
    """A word of an output, or how many there are, in a text."""
    if isinstance(value, int):
        return f"{value} words"
    text = value.decode("utf-8", "backslashreplace") if isinstance(value, bytes) else str(value)
    text = "".join(one if one.isprintable() else repr(one)[1:-1] for one in text)
    return text if len(text) <= SHOWN else f"{text[:SHOWN]}.."


def sentence_of(difference: Difference, names: Dict[str, str]) -> str:
    first, second = map(shown, difference.values)
    one, other = names[difference.first], names[difference.second]
    return f"the outputs differ: {first} with {one}, {second} with {other}"


def of_outputs(orders: Orders, names: Dict[str, str], pairs: int) -> Verdict:
    """The verdict if all runs end in one way, and print different things."""
    runs, (word, features) = count_of(orders), by_words(orders)
    if not word:
        return Verdict(None, OUTPUTS_VARY, False)
    whole: Dict[str, Set[object]] = {name: {one.output for one in found} for name, found in orders.items()}
    needed = runs_needed(pairs, 1 if first_difference(whole) else features)
    if runs >= needed:
        return Verdict(True, sentence_of(word, names), False)
    return Verdict(None, OUTPUTS_VARY, runs < MOST_RUNS)


def verdict(orders: Orders, names: Dict[str, str], tries: int) -> Verdict:
    """What the runs of all orders show. `names` has the name of each order in a text; each has `tries` runs at
    least."""
    runs, pairs = count_of(orders), len(orders) * (len(orders) - 1) // 2
    endings: Dict[str, Set[object]] = {name: {one.ending for one in found} for name, found in orders.items()}
    all_endings = set().union(*endings.values())
    if GONE in all_endings:
        return Verdict(None, IS_GONE, False)
    if all_endings == {HANGS}:
        return Verdict(None, IS_ENDLESS, False)
    if first_difference(endings):
        enough = runs >= runs_needed(pairs)
        return Verdict(True, ENDINGS_DIFFER, False) if enough else Verdict(None, ENDINGS_VARY, True)
    if len(all_endings) > 1:
        return Verdict(None, ENDINGS_VARY, False)
    if len({one.output for found in orders.values() for one in found}) > 1:
        return of_outputs(orders, names, pairs)
    return Verdict(False, "", runs < tries)
