#!/usr/bin/env python3
"""Writes the test vectors of the readings: tables with lists of kinds, and the line that each list has to give.

The lines come from reading_oracle.py: by a general parser over the plain grammar and by a simulation of the canonical
parser, and not from the product. trial.py asks a parser from elsewhere of them too. Run it in the repository's top
folder:

    python3 tools/reading_cases.py

It writes stdin and stdout of the crates reading_cases and sheet_readings, and those of read_sheet with its table. With
--random N --seed S it writes N random grammars of each k with lists in place of those of reading_cases, for a
comparison by hand. With --sheet TABLE SHEET it writes nothing, and prints what read_sheet has to print of a sheet.
"""
import argparse
import itertools
import pathlib
import random

import sheet_cases
import table_oracle
from grammars import ALL_WORDS, NAMED, SMALLEST, fence, is_sound, named, random_rules, rules_of
from reading_oracle import Canonical, Parser, Simulation, agree, closing, outcome
from table_cases import CRATES, random_tables
from table_oracle import START, build, frames_of, read, table

MOST_TOKENS = 60_000
TOO_LONG = "more than 60,000 bytes"
SKIPPED = ("15", "16")  # line ends and comments


# Lists

def short_rules(g):
    """For each nonterminal a rule whose own nonterminals had theirs before: by these a derivation ends."""
    found = {}
    while len(found) < len(g.nonterminals):
        for r, (left, right) in enumerate(g.rules):
            if left not in found and all(x < START or x in found for x in right):
                found[left] = r
    return found


def derived(g, short, rng, most):
    """A sentence and its left parse, of random rules while there are not too many symbols."""
    kinds, parse, todo = [], [], [START]
    while todo:
        x = todo.pop()
        if x < START:
            kinds.append(x)
            continue
        free = len(kinds) + len(todo) + len(parse) // 2 < most
        rule = rng.choice(g.numbers[x]) if free else short[x]
        parse.append(rule)
        todo += reversed(g.rights[rule])
    return kinds, parse


def damaged(kinds, t, rng):
    """A list with one entry dropped, doubled, replaced or exchanged, one more, or cut."""
    at, other = rng.randrange(len(kinds) + 1), rng.randint(1, t)
    front, back = kinds[:at], kinds[at:]
    return rng.choice((front + back[1:], front + back[:1] + back, front + [other] + back[1:], front + [other] + back,
                       front + back[1:2] + back[:1] + back[2:], front))


def random_list(t, rng):
    return [rng.randint(1, t) for _ in range(rng.randrange(8))]


def all_lists(t, most):
    return [list(kinds) for length in range(most + 1)
            for kinds in itertools.product(range(1, t + 1), repeat=length)]


def with_odd_kinds(lists):
    """Each list with a kind that is no token's in it, or behind it."""
    return [kinds[:at] + [odd] + kinds[at:] for kinds in lists for odd in (0, 31, 32, 255)
            for at in {0, len(kinds) // 2, len(kinds)}]


# Groups: a table, lists for it, and sentences that are known with their left parses

def usual(made, rng, sentences, most, further=()):
    g = made.grammar
    short = short_rules(g)
    known = [derived(g, short, rng, most) for _ in range(sentences)]
    lists = [kinds for kinds, _ in known]
    lists += [damaged(kinds, g.t, rng) for kinds, _ in known for _ in range(3)]
    lists += [damaged(damaged(kinds, g.t, rng), g.t, rng) for kinds, _ in known]
    lists += [random_list(g.t, rng) for _ in range(sentences)]
    return made, [*map(list, dict.fromkeys(map(tuple, [*lists, *further])))], known


def is_accepted(made):
    return table_oracle.outcome(made.text()).startswith("accepted")


def named_groups(rng):
    """The named grammars, those that are LL(k) also with other numbers for their states."""
    for name in NAMED:
        made = table(*named(name))
        short = all_lists(made.grammar.t, 5 if made.grammar.t <= 3 else 1)
        if not is_accepted(made):
            yield made, short[:2], []
            continue
        group = usual(made, rng, 25, 30, short + with_odd_kinds([[], [1], [2, 1]]))
        yield group
        renumbered = made.reordered(made.allowed_order(rng))
        yield renumbered, rng.sample(group[1], min(20, len(group[1]))), group[2]


def other_groups(rng):
    """The smallest table, tables with many words and many states, and one that is not as defined."""
    yield usual(table(*SMALLEST), rng, 1, 1, all_lists(1, 3))
    yield made_of(build(*named("t")).replace(b"030100\n040100", b"030100\n041F00")), [[2, 1, 1], []], []
    for k in (1, 2):
        yield usual(table(k, ALL_WORDS, 20, 2), rng, 5, 20)
        yield usual(table(k, fence(200, 60), 20, 4), rng, 10, 40)


def spread(per_token):
    """32 is any number of tokens 1, each with so many moves: a rule for 32, the rules for 33, and the token."""
    levels, more = divmod(per_token - 2, 6)
    rules = [(START, (33, START)), (START, ()), (34, ())]
    for level in range(levels):
        left = 33 if level == 0 else 34 + level
        rules.append((left, (34,) * 5 + (35 + level,)))
    return rules + [(34 + levels, (34,) * (more - 1) + (1,))]


def limit_groups():
    """Both sides of the limits."""
    nested = table(*named("nested"))
    yield nested, [[1] * n + [3] + [2] * n for n in (252, 253, 254, 300)], []
    for k in (1, 2):  # the stack rises by four states at a time
        steep = table(k, rules_of("20012002020202 2003"), 3, 1)
        yield steep, [[1] * n + [3] + [2] * (4 * n) for n in range(60, 67)], []
    t = table(*named("t"))
    yield t, [[2] + [1] * (n - 2) + [last] for n in (MOST_TOKENS - 1, MOST_TOKENS, MOST_TOKENS + 1) for last in (1, 2)], []
    for per_token, lengths in ((31, (32_258, 32_259)), (27, (37_036, 37_037))):
        rules = spread(per_token)
        made = table(1, rules, 1, max(left for left, _ in rules) - START + 1)
        yield made, [[1] * n for n in (0, 1, 32, *lengths)], []


def random_groups(rng, count):
    """Random grammars that are LL(k), so many of each k."""
    left = {1: count, 2: count}
    while any(left.values()):
        rules, t, n = random_rules(rng)
        k = rng.choice([k for k in left if left[k]])
        made = table(k, rules, t, n, 40) if is_sound(rules, t, n) else None
        if made and is_accepted(made):
            left[k] -= 1
            yield usual(made.reordered(made.allowed_order(rng)), rng, 3, 12)


def shaped_groups(rng, count):
    """Tables of grammars of many shapes, so many that are accepted."""
    tables = (made for made in random_tables(rng) if is_accepted(made))
    return (usual(made, rng, 4, 20) for made in itertools.islice(tables, count))


def groups():
    rng = random.Random(20)
    yield from named_groups(rng)
    yield from other_groups(rng)
    yield from limit_groups()
    yield from random_groups(rng, 150)
    yield from shaped_groups(random.Random(21), 200)


# Files

def line_of(canonical, parser, kinds, known):
    if len(kinds) > MOST_TOKENS:
        return "refused 18 %d: %s" % (len(kinds), TOO_LONG)
    return outcome(canonical, parser, kinds, known)


def lines_of(made, lists, known):
    """The lines of a group: the table's own where it is refused, and otherwise one for each list."""
    if not is_accepted(made):
        return [table_oracle.outcome(made.text())]
    canonical, parser = Canonical(made), Parser(made.grammar)
    return [line_of(canonical, parser, kinds, known) for kinds in lists]


def case(text):
    return b"%d\n" % len(text) + text


def write_cases(folder, all_groups):
    batch, lines = b"", []
    for made, lists, known in all_groups:
        batch += case(case(made.text()) + b"".join(case(bytes(kinds)) for kinds in lists))
        lines += lines_of(made, lists, known)
    (folder / "stdin").write_bytes(batch)
    (folder / "stdout").write_text("".join(line + "\n" for line in lines))


# Sheets

SHEET = b"""zone "north wing": hall, "flat 2", attic;
curve winter: 20:35, 10:42, 0:50; # fitted
set night = 18 from 22 to 6;
set pump = off;
"""
WINTER = b"""zone north: hall, attic;
night = 18 from 22 to 6;
winter: 20:35, 10:42;
band = 20-24;
"""
OTHERS = [b"zone a: b, c;\nset night = 18 to 22;\n", b'zone "north\nset a = 1\n', b"zone A: b;\n",
          b"set " + b"a" * 33 + b" = 1\n", b"", b"# nothing\n\n  # but comments"]
FAULTS = [b"!", b"\xc3\xa9", b'"open', b"w" * 33, b"5" * 33 + b" x"]
SPELLINGS = {1: [b"0", b"18", b"7" * 32], 2: [b"hall", b"w" * 32], 3: [b'""', b'"flat 2"'], 15: [b"\n"]} | {
    kind: [text] for text, kind in (sheet_cases.WORDS | sheet_cases.MARKS).items()}
GAPS = [b" "] * 4 + [b"\n", b"\t\n  ", b" # by hand\n", b"#\n"]


def spelled(kinds, rng):
    """A sheet with tokens of these kinds, and with blanks, line ends and comments between them."""
    return b"".join(rng.choice(SPELLINGS[kind]) + rng.choice(GAPS) for kind in kinds)


def sheet_groups():
    """Tables with sheets, and sentences that are known with their left parses."""
    rng = random.Random(30)
    short_cases = [sheet for sheet in sheet_cases.edge_cases() if 1 < len(sheet) < 1_000]
    stored = [SHEET, WINTER, *OTHERS, *short_cases, *(sheet_cases.random_sheet(rng) for _ in range(20))]
    for name in ("heating1", "heating2", "lines", "t"):
        made = table(*named(name))
        g, short = made.grammar, short_rules(made.grammar)
        known = [derived(g, short, rng, 25) for _ in range(15)]
        lists = [kinds for kinds, _ in known]
        sheets = [spelled(kinds, rng) for kinds in [*lists, *(damaged(kinds, g.t, rng) for kinds in lists)]]
        sheets += [spelled(kinds[:rng.randrange(len(kinds) + 1)], rng) + rng.choice(FAULTS) for kinds in lists]
        yield made.text(), [*stored, *sheets], known
        stored = [sheet for sheet in stored if sheet not in short_cases]
    yield table(*named("t")).text(), [b" " * 60_001], []
    yield build(*named("t")).replace(b"030100\n040100", b"030100\n041F00"), [SHEET, b""], []


def made_of(text):
    """The table of a text that is accepted."""
    g, given = read(frames_of(text))
    states = [(frozenset(kernel), frozenset((a, b) if b else (a,) for a, b in words)) for kernel, words, _, _ in given]
    return table_oracle.Table(g, states, [dict(successors) for _, _, successors, _ in given],
                              [set(choices) for _, _, _, choices in given])


def tokens_of(sheet):
    """Places and kinds of the tokens that are read, and the line at their end in its three parts."""
    *listed, last = [line.split(" ", 2) for line in sheet_cases.listing(sheet).splitlines()]
    return [(place, int(kind)) for place, kind, _ in listed if kind not in SKIPPED], last


def transcript(canonical, parser, sheet, known):
    """What has to be printed of a sheet by a table that is accepted."""
    tokens, last = tokens_of(sheet)
    if last[1] == "18":
        return " ".join(last) + "\n"
    kinds = [kind for _, kind in tokens]
    done = Simulation(canonical, kinds, last[0] == "refused")
    assert agree(parser, kinds, done, known), (canonical.grammar.rules, sheet)
    out = ["rule %d" % value if what == "rule" else "token %s %d" % tokens[value] for what, value in done.trace]
    value, reason = 0, None
    if done.answer == 12:
        value = [*(place for place, _ in tokens), last[1]][done.asked]
    elif done.answer == 15:
        place, reason = last[2].split(": ")
        value = "%s %s" % (last[1], place)
    out.append(closing(done.answer, value, done.tokens, len(done.rules), done.moves, reason))
    return "".join(line + "\n" for line in out)


def transcripts(text, sheets, known=()):
    """What has to be printed of sheets and the text of a table: its own line where it is refused."""
    verdict = table_oracle.outcome(text)
    if verdict.startswith("refused"):
        return verdict + "\n"
    made = made_of(text)
    canonical, parser = Canonical(made), Parser(made.grammar)
    return "".join(transcript(canonical, parser, sheet, known) for sheet in sheets)


def write_sheet(folder):
    text = build(*named("heating1"))
    (folder / "data").mkdir(exist_ok=True)
    (folder / "data/heating1.hex").write_bytes(text)
    (folder / "args").write_text("heating1.hex\n")
    (folder / "stdin").write_bytes(SHEET)
    (folder / "stdout").write_text(transcripts(text, [SHEET]))


def write_sheets(folder, all_groups):
    batch, out = b"", ""
    for text, sheets, known in all_groups:
        batch += case(case(text) + b"".join(map(case, sheets)))
        out += transcripts(text, sheets, known)
    (folder / "stdin").write_bytes(batch)
    (folder / "stdout").write_text(out)


def write_stored():
    write_cases(CRATES / "reading_cases", groups())
    write_sheet(CRATES / "read_sheet")
    write_sheets(CRATES / "sheet_readings", sheet_groups())


def main():
    options = argparse.ArgumentParser(description=__doc__, formatter_class=argparse.RawDescriptionHelpFormatter)
    options.add_argument("--random", type=int, default=0)
    options.add_argument("--seed", type=int, default=1)
    options.add_argument("--sheet", type=pathlib.Path, nargs=2)
    chosen = options.parse_args()
    if chosen.sheet:
        text, sheet = (path.read_bytes() for path in chosen.sheet)
        print(transcripts(text, [sheet]), end="")
    elif chosen.random:
        write_cases(CRATES / "reading_cases", random_groups(random.Random(chosen.seed), chosen.random))
    else:
        write_stored()


if __name__ == "__main__":
    main()
