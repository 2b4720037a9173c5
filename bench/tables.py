#!/usr/bin/env python3
"""Writes tables of growing size for the measurements, and two sheets that they read: `tables.py FOLDER`.

check-S.hex are tables of S states, the larger with up to 421 words in a state, to be checked.
lookahead-K-M.hex read a list of any tokens of M kinds with K symbols of lookahead, and states-S.hex a list of 12 kinds
with S states. All of these read few.sheet, of the kinds 13 and 14, which stand behind all others but those from 15 on
in the lists of a state; those with at least 12 kinds read all.sheet too, of the kinds 3 to 14 in any order. A line on
standard output tells what each table of the two families is.
"""
import pathlib
import random
import sys

sys.path.insert(0, str(pathlib.Path(__file__).resolve().parent.parent / "tools"))
from table_oracle import START, table

ITEM = START + 1
KINDS = 14
FEW = ["to", "off"]
ALL = ['"a"', ":", "=", ",", ";", "-", "zone", "curve", "set", "from", *FEW]


def rows(k, rules):
    """The table of rules whose numbers of tokens and nonterminals are the least that they need."""
    used = [x for left, right in rules for x in (left, *right)]
    t, n = max([KINDS] + [x for x in used if x < START]), max(used) - START + 1
    return table(k, rules, t, n)


def listed(kinds):
    """A list of items, each a token of one of these kinds."""
    return [(START, (ITEM, START)), (START, ())] + [(ITEM, (kind,)) for kind in kinds]


def tower(low, height, item):
    """Nonterminals from `low` on, each of five of the next one and an item."""
    high = low + height
    return [(a, (a + 1,) * 5 + (item,)) for a in range(low, high)] + [(high, (item,) * 6)]


def to_check():
    """Tables of growing size: small ones, and some whose states have up to 421 words."""
    yield rows(1, [(START, (1, START)), (START, ())])
    yield rows(1, listed([1, 2]) + tower(34, 0, 3) + [(START, (3, 34, START))])
    for height in (0, 2, 6, 11, 16, 21):
        rules = [(START, (34,) * 4 + (START,)), (START, (ITEM,)), (START, ())]
        yield rows(2, rules + [(ITEM, (kind,)) for kind in range(1, 21)] + tower(34, height, ITEM))


def by_lookahead():
    """The list of more and more kinds."""
    for k in (1, 2):
        for count in (2, 4, 8, 14, 20):
            kinds = range(1, 21) if count == 20 else range(KINDS + 1 - count, KINDS + 1)
            yield f"lookahead-{k}-{count}", rows(k, listed(kinds))


def by_states():
    """The list with more and more states beside it that the sheet does not reach."""
    for height in (0, 4, 12, 21):
        rules = listed(range(3, KINDS + 1)) + [(START, (1, 34, START))] + tower(34, height, 2)
        made = rows(1, rules)
        yield f"states-{len(made.states)}", made


def told(name, made):
    """The numbers of a table: states, and the most words, successors and choices of a state."""
    most = [max(map(len, column)) for column in ([words for _, words in made.states], made.successors, made.choices)]
    return " ".join(map(str, [name, len(made.states), *most, len(made.text())]))


def sheet(rng, tokens):
    """Any of these tokens, as many as fit."""
    text, length = [], 0
    while True:
        token = rng.choice(tokens)
        length += len(token) + 1
        if length > 60_000:
            return " ".join(text)
        text.append(token)


def main():
    folder = pathlib.Path(sys.argv[1])
    folder.mkdir(parents=True, exist_ok=True)
    for made in to_check():
        (folder / f"check-{len(made.states)}.hex").write_bytes(made.text())
    for name, made in [*by_lookahead(), *by_states()]:
        (folder / f"{name}.hex").write_bytes(made.text())
        print(told(name, made))
    (folder / "few.sheet").write_text(sheet(random.Random(1), FEW))
    (folder / "all.sheet").write_text(sheet(random.Random(1), ALL))


if __name__ == "__main__":
    main()
