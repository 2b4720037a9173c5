#!/usr/bin/env python3
"""Tries the programs table_cases and reading_cases beside oracles, among them a general parser from elsewhere, Marpa.

    python3 tools/trial.py fresh --seed 1 --lists 1000000 --tables 40000

makes random grammars, their tables, damaged tables, and lists of tokens; runs the programs on them, and compares each
line with the one that the oracles give:

- The verdict on a table, by table_oracle.py, which has the definitions as plain sets.
- A grammar whose table is accepted must not have two left parses, among those of some derived sentences, that break the
  definition of LL(k); for one that is refused with 10 such parses are looked for, and counted.
- Of a list that is a sentence the whole line, by Marpa (outside_parser.py): the left parse in full, and as many moves
  as rules and tokens and one.
- Of any other list that it is refused, and at which place, by Marpa. Which rules were announced by then, and in how many
  moves, by the simulation of reading_oracle.py; and these rules have to begin the parse, by Marpa, of each sentence of
  the same grammar at hand that goes on from the tokens let in.
- Where a limit is met (256 states, 1,000,000 moves), by the simulation; Marpa has to know a sentence that goes on, or
  the list's own parse, from what was let in.

It prints what differs, a line of progress for each round, and at the end, or where it is interrupted, the totals. A
round is made again by its seed and number (--only).

    python3 tools/trial.py stored

writes the stored cases of the programs anew, as table_cases.py and reading_cases.py do, and asks Marpa of every stored
list and sheet; it prints how many lines it told, and stops where it says otherwise.
"""
import argparse
import itertools
import multiprocessing
import pathlib
import random
import signal
import subprocess
import sys
from collections import Counter

import reading_cases
import table_cases
from outside_parser import OutsideParser
from reading_oracle import Canonical, Simulation, begins, line_of
from table_cases import CRATES
from table_oracle import END, START, outcome, text_of

NOT_ASKED = 13, 14, 15  # answers of a reading that are not about sentences
LISTS_A_ROUND = 5_000
FEW_STATES = 6
FEW_SENTENCES, SENTENCES = 4, 20  # of a grammar


# What the oracles say of a group of lists

class Group:
    """Lists for a table that is accepted, with what Marpa answers of each."""

    def __init__(self, outside, made, lists, known=()):
        self.lists, self.canonical = lists, Canonical(made)
        self.answers = outside.ask(made.grammar, lists)
        self.parses = [(kinds, answer.parse) for kinds, answer in zip(lists, self.answers) if answer.parse is not None]
        self.derived = {tuple(kinds): parse for kinds, parse in known}

    def going_on(self, kinds, done):
        """The parses of the group's sentences that begin with what a reading has let in, where it is refused."""
        let_in = kinds[:done.asked]
        return [parse for sentence, parse in self.parses
                if done.answer and done.asked <= len(sentence) and begins(sentence, let_in)]

    def agrees(self, kinds, answer, done):
        """Whether a reading comes to what Marpa answers."""
        begun = all(begins(parse, done.rules) for parse in self.going_on(kinds, done))
        if answer.refused or not answer.only or not begun:
            return False
        if done.answer in NOT_ASKED:
            return (answer.place or len(kinds) + 2) > done.asked
        if answer.parse is None:
            return done.answer == 12 and answer.place == done.asked + 1
        parse = self.derived.get(tuple(kinds), answer.parse)
        return done.answer == 0 and answer.parse == parse == done.rules and done.moves == len(parse) + len(kinds) + 1

    def line(self, kinds, answer, counts):
        """The line of a list, and whether the oracles agree on it."""
        done = Simulation(self.canonical, kinds)
        counts["answer %d" % done.answer] += 1
        counts["compared with a sentence that goes on"] += bool(self.going_on(kinds, done))
        value = done.asked + 1 if done.answer == 12 else 0
        return line_of(done.answer, value, done.tokens, done.rules, done.moves), self.agrees(kinds, answer, done)

    def lines(self, counts):
        return [self.line(kinds, answer, counts) for kinds, answer in zip(self.lists, self.answers)]


# Fresh cases

def is_canonical(verdict):
    """Whether nothing is wrong with the table but that several rules may fit a word."""
    return verdict.startswith(("accepted", "refused 10 "))


def sampled(texts, count, rng):
    texts = list(texts)
    return rng.sample(texts, min(count, len(texts)))


def damaged_tables(made, verdict, rng):
    """Copies with bytes changed, and of small tables some with an entry, a frame or a state changed."""
    frames = made.frames()
    yield from (table_cases.some_change(frames, count, rng) for count in (1, 1, 2))
    if is_canonical(verdict) and len(made.states) <= FEW_STATES:
        yield from sampled(table_cases.digit_changes(text_of(frames)), 1, rng)
        yield from sampled(table_cases.frame_changes(frames, rng), 1, rng)
        yield from sampled(table_cases.entry_changes(frames, rng), 4, rng)
        yield from sampled(table_cases.state_changes(made, rng), 4, rng)


def derivations(g, rng, tries, most):
    """Different sentences and their left parses, by rules chosen at random."""
    short = reading_cases.short_rules(g)
    found = (reading_cases.derived(g, short, rng, rng.randint(0, most)) for _ in range(tries))
    return [*{(tuple(kinds), tuple(parse)): (kinds, parse) for kinds, parse in found}.values()]


def some_derivations(g, rng):
    """Few of them; rarely long ones."""
    return derivations(g, rng, 6, 1_000) if rng.random() < 0.01 else derivations(
        g, rng, 100, rng.choice((15, 30, 60, 150)))


def clash(g, known):
    """Whether two left parses go apart while the same k symbols of their sentences are left to read.

    No LL(k) grammar has such parses, by definition. The rules before are the same in both, and so the tokens are.
    """
    nodes, chosen = {}, {}
    for kinds, parse in known:
        node, taken, todo = 0, 0, [START]
        for rule in parse:
            while todo[-1] < START:
                taken, _ = taken + 1, todo.pop()
            window = (*kinds, END)[taken:taken + g.k]
            if chosen.setdefault((node, window), rule) != rule:
                return True
            node = nodes.setdefault((node, rule), len(nodes) + 1)
            todo[-1:] = reversed(g.rights[rule])
    return False


def clash_somewhere(g):
    """Whether there is a clash among many derivations."""
    rng = random.Random(0)
    return any(clash(g, derivations(g, rng, 1_500, most)) for most in (10, 20, 40, 80, 160))


def fresh_lists(known, t, rng):
    """The sentences, the same with damage, and any lists."""
    lists = [kinds for kinds, _ in known]
    lists += [reading_cases.damaged(kinds, t, rng) for kinds in lists]
    lists += [reading_cases.damaged(kinds, t, rng) for kinds in lists[len(known):] if rng.random() < 0.3]
    lists += [reading_cases.random_list(t, rng) for _ in range(5)]
    lists += [rng.choice(reading_cases.with_odd_kinds([rng.choice(lists)])) for _ in range(2)]
    return [*map(list, dict.fromkeys(map(tuple, lists)))]


class Round:
    """Cases of a seed and number, and what came of them."""

    def __init__(self, chosen, number):
        self.chosen, self.number = chosen, number
        self.rng = random.Random("%d %d" % (chosen.seed, number))
        self.counts, self.differences = Counter(), []
        self.tables, self.groups = [], []

    def make(self, outside, tables):
        for made in table_cases.random_tables(self.rng):
            text = table_cases.text_of_table(made)
            verdict = outcome(text)
            self.tables.append((text, verdict))
            self.counts["grammars"] += 1
            if self.counts["damaged tables"] < tables:
                texts = [*damaged_tables(made, verdict, self.rng)]
                self.counts["damaged tables"] += len(texts)
                self.tables += [(damaged, outcome(damaged)) for damaged in texts]
            if is_canonical(verdict):
                self.derive(outside, made, text, verdict)
            if self.counts["lists"] >= LISTS_A_ROUND:
                return

    def derive(self, outside, made, text, verdict):
        """Compares LL(k) with its definition on some sentences, and adds lists for a table that is accepted."""
        g = made.grammar
        known, accepted = some_derivations(g, self.rng), verdict.startswith("accepted")
        apart = clash(g, known) or not accepted and clash_somewhere(g)
        self.counts["not LL(k), %s by two parses" % ("shown" if apart else "not shown")] += not accepted
        if accepted and apart:
            self.differs("LL(k)", "two rules fit", verdict, text)
        elif accepted and (len(known) >= FEW_SENTENCES or self.rng.random() < 0.3):
            known = known[:SENTENCES]
            self.groups.append((text, Group(outside, made, fresh_lists(known, g.t, self.rng), known)))
            self.counts["tables read by, k = %d" % g.k] += 1
            self.counts["lists"] += len(self.groups[-1][1].lists)

    def differs(self, what, expected, printed, case):
        self.differences.append("round %d, %s\n  expected %s\n  printed  %s\n  case     %s" % (
            self.number, what, expected, printed, case))

    def compare_tables(self):
        batch = b"".join(reading_cases.case(text) for text, _ in self.tables)
        printed = run(self.chosen.table_cases, batch)
        for (text, verdict), line in itertools.zip_longest(self.tables, printed, fillvalue=(b"", "")):
            word, number, *_ = verdict.split()
            self.counts["tables " + (word if word == "accepted" else "%s with %2s" % (word, number))] += 1
            if line != verdict:
                self.differs("table", verdict, line, text)

    def compare_readings(self):
        batch = b"".join(reading_cases.case(b"".join(map(reading_cases.case, [text, *map(bytes, group.lists)])))
                         for text, group in self.groups)
        expected = [(text, kinds, line) for text, group in self.groups
                    for kinds, line in zip(group.lists, group.lines(self.counts))]
        printed = run(self.chosen.reading_cases, batch)
        self.counts["tokens"] += sum(len(kinds) for _, kinds, _ in expected)
        if len(printed) != len(expected):
            self.differs("number of lines", len(expected), len(printed), "")
        for (text, kinds, (line, agreed)), given in zip(expected, printed):
            if not agreed:
                self.differs("list, the oracles disagree", line, given, (text, kinds))
            elif line != given:
                self.differs("list", line, given, (text, kinds))


def run(program, batch):
    return subprocess.run([program], input=batch, stdout=subprocess.PIPE, check=True).stdout.decode().splitlines()


outside_parser = None


def try_round(job):
    """One round in a process that has its own outside parser."""
    global outside_parser
    outside_parser = outside_parser or OutsideParser()
    chosen, number = job
    tried = Round(chosen, number)
    tried.make(outside_parser, chosen.tables / rounds_of(chosen))
    tried.compare_tables()
    tried.compare_readings()
    return tried.counts, tried.differences


def rounds_of(chosen):
    return -(-chosen.lists // LISTS_A_ROUND)


def fresh(chosen):
    numbers = [chosen.only] if chosen.only is not None else range(chosen.first, rounds_of(chosen))
    counts = Counter()
    with multiprocessing.Pool(chosen.jobs, signal.signal, (signal.SIGINT, signal.SIG_IGN)) as pool:
        try:
            for more, differing in pool.imap(try_round, [(chosen, number) for number in numbers]):
                counts += more + Counter({"rounds": 1, "differences": len(differing)})
                print(*differing, sep="\n", end="\n" * bool(differing))
                print("%d of %d rounds, %d lists, %d differences" % (
                    counts["rounds"], len(numbers), counts["lists"], counts["differences"]), file=sys.stderr, flush=True)
        except KeyboardInterrupt:  # the totals of the rounds that are done
            pass
    for what in sorted({*counts, "differences"}):
        print("%9d %s" % (counts[what], what))
    return counts["differences"]


# Stored cases

def confirm(outside, all_groups):
    """Asks Marpa of each list, and counts what it told."""
    counts = Counter()
    for made, lists, known in all_groups:
        if not reading_cases.is_accepted(made):
            counts["lists by a table that is refused"] += len(lists)
            continue
        short = [kinds for kinds in lists if len(kinds) <= reading_cases.MOST_TOKENS]
        counts["lists that are too long for a source"] += len(lists) - len(short)
        for line, agreed in Group(outside, made, short, known).lines(counts):
            assert agreed, (made.grammar.rules, line)
        counts["lists that Marpa was asked of"] += len(short)
    return counts


def confirm_sheets(outside, all_groups):
    """The same for the sheets that are read by tables."""
    counts = Counter()
    for text, sheets, known in all_groups:
        if outcome(text).startswith("refused"):
            counts["sheets by a table that is refused"] += len(sheets)
            continue
        read = [reading_cases.tokens_of(sheet) for sheet in sheets]
        faulty = [last[0] == "refused" for _, last in read]
        group = Group(outside, reading_cases.made_of(text), [[kind for _, kind in tokens] for tokens, _ in read], known)
        for kinds, answer, fault in zip(group.lists, group.answers, faulty):
            assert group.agrees(kinds, answer, Simulation(group.canonical, kinds, fault)), (text, kinds)
        counts["sheets that Marpa was asked of"] += len(sheets)
    return counts


def stored():
    table_cases.write_stored()
    reading_cases.write_stored()
    outside = OutsideParser()
    counts = confirm(outside, reading_cases.groups()) + confirm_sheets(outside, reading_cases.sheet_groups())
    for what in sorted(counts):
        print("%6d %s" % (counts[what], what))


def program(name):
    """The path of a program of this repository, which is built first where it is not there."""
    path = CRATES / name / "out" / name
    if not path.exists():
        nothing = subprocess.DEVNULL
        subprocess.run(["rt", "run"], cwd=CRATES / name, stdin=nothing, stdout=nothing, check=True)
    return path.resolve()


def main():
    options = argparse.ArgumentParser(description=__doc__, formatter_class=argparse.RawDescriptionHelpFormatter)
    kinds = options.add_subparsers(dest="command", required=True)
    kinds.add_parser("stored")
    of_fresh = kinds.add_parser("fresh")
    of_fresh.add_argument("--seed", type=int, default=1)
    of_fresh.add_argument("--lists", type=int, default=20_000)
    of_fresh.add_argument("--tables", type=int, default=2_000, help="how many damaged tables")
    of_fresh.add_argument("--jobs", type=int, default=2)
    of_fresh.add_argument("--first", type=int, default=0, help="the round to begin with")
    of_fresh.add_argument("--only", type=int, help="one round alone")
    of_fresh.add_argument("--table-cases", type=pathlib.Path, help="the built program")
    of_fresh.add_argument("--reading-cases", type=pathlib.Path, help="the built program")
    chosen = options.parse_args()
    if chosen.command == "stored":
        return stored()
    chosen.table_cases = chosen.table_cases or program("table_cases")
    chosen.reading_cases = chosen.reading_cases or program("reading_cases")
    return min(fresh(chosen), 1)


if __name__ == "__main__":
    sys.exit(main())
