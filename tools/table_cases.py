#!/usr/bin/env python3
"""Writes the test vectors of the check: table files, and the line that each has to give.

The lines come from table_oracle.py, which makes the states of a grammar as plain sets, and not from the product. Run it
in the repository's top folder:

    python3 tools/table_cases.py

It writes stdin and stdout of the crates table_cases (each text behind a line with the number of its bytes) and
check_table (one table). With --random N --seed S it writes N accepted and N refused random tables, each with damaged
copies, in place of the stored cases, for a comparison by hand. With --heavy FOLDER it writes stdin and stdout there
instead: all cases, none left out for size, and besides the largest tables and the longest texts. With --count it writes
nothing, and prints how many cases there are for each number of a refusal.
"""
import argparse
import itertools
import pathlib
import random
from collections import Counter

import grammars
from grammars import (ALL_WORDS, ANY_TOKEN, NAMED, SMALLEST, choice_count, fence, is_sound, named, random_rules,
                      rules_of, size_of)
from table_oracle import (DIGIT_LIMIT, ENTRY_SIZE, START, STATE_LIMIT, TEXT_LIMIT, Table, build, entries_of, frame_of,
                          frames_of, outcome, read, table, text_of)


CRATES = pathlib.Path("crates")


# Damage

def changed(frames, number, frame):
    return text_of(frames[:number] + [frame] + frames[number + 1:])


def byte_changes(frames, values):
    """Each byte of each frame changed to other values."""
    for number, frame in enumerate(frames):
        for i, old in enumerate(frame):
            for new in sorted(set(values(old)) - {old}):
                yield changed(frames, number, frame[:i] + [new % 256] + frame[i + 1:])


def exchanged(count, i, j):
    return [{i: j, j: i}.get(at, at) for at in range(count)]


def frame_changes(frames, rng):
    """Frames dropped, doubled, exchanged, cut and made longer."""
    for i, frame in enumerate(frames):
        yield text_of(frames[:i] + frames[i + 1:])
        yield text_of(frames[:i] + [frame] + frames[i:])
        yield text_of(frames[:i])
        for j in {i + 1, i + 4, rng.randrange(len(frames))} & {*range(len(frames))}:
            order = exchanged(len(frames), i, j)
            yield text_of([frames[at] for at in order])
        yield changed(frames, i, frame + [rng.choice(frame)])
        yield changed(frames, i, frame + [0])
        if len(frame) > 1:
            yield changed(frames, i, frame[:-1])
            yield changed(frames, i, frame[:1])


def entry_changes(frames, rng):
    """Entries of a state dropped, doubled, exchanged, replaced and added in their place."""
    g, given = read([bytes(frame) for frame in frames])
    pool = {tag: sorted({e for state in given for e in state[tag - 3]}) for tag in ENTRY_SIZE}
    pool[3] = [(r, d) for r, right in enumerate(g.rights) for d in range(len(right))]
    for number, frame in enumerate(frames):
        def made(those):
            return changed(frames, number, frame_of(tag, those))

        tag = frame[0]
        entries = entries_of(frame) if tag in ENTRY_SIZE else []
        for i, entry in enumerate(entries):
            yield made(entries[:i] + entries[i + 1:])
            yield made(entries[:i] + [entry] + entries[i:])
            if i > 0:
                yield made(entries[:i - 1] + [entry, entries[i - 1]] + entries[i + 1:])
            other = entry[:-1] + (rng.randrange(8),)  # as a rule: the same key once more
            yield made(sorted({*entries, other}))
        others = [entry for entry in pool.get(tag, []) if entry not in entries]
        for entry in rng.sample(others, min(2, len(others))):
            yield made(sorted(entries + [entry]))
            if entries:
                yield made(sorted(rng.sample(entries, len(entries) - 1) + [entry]))
        if tag == 6 and entries and pool[6]:
            odd = [(a, *rng.choice(pool[4]), r) for a, _, _, r in pool[6]]
            yield made(sorted({*entries, rng.choice(odd)}))


def state_changes(made, rng):
    """States exchanged, doubled, removed and added, with all numbers kept consistent."""
    s, g = len(made.states), made.grammar
    for i in range(s):
        for j in range(i + 1, min(s, i + 4)):
            yield made.reordered(exchanged(s, i, j)).text()
        yield made.reordered([q for q in range(s) if q != i]).text()
        yield made.reordered([*range(s), i, rng.randrange(s)]).text()
        for at in (i + 1, rng.randint(i + 1, s), s):
            twin = made.reordered([*range(at), i, *range(at, s)])
            for q in range(s + 2):  # the twin is named by state q, or by none
                renamed = [{x: at if (by, to) == (q, i) else to for x, to in successors.items()}
                           for by, successors in enumerate(twin.successors)]
                yield Table(g, twin.states, renamed, twin.choices).text()
                both = {(x, at) for x, to in twin.successors[min(q, s)].items() if to == i}
                entries = sorted({*twin.successors[min(q, s)].items(), *both})
                yield changed(twin.frames(), 3 + g.p + 4 * min(q, s), frame_of(5, entries))
    words = sorted({word for _, those in made.states for word in those})
    for r, d in [(r, d) for r, right in enumerate(g.rights) for d in range(len(right))]:
        for word in rng.sample(words, min(3, len(words))):  # a state that is no successor
            state = (frozenset({(r, d)}), frozenset({word}))
            states = made.states + [state]
            nexts = {x: g.next(state, x) for x in g.symbols(state)}
            successors = {x: states.index(to) for x, to in nexts.items() if to in states}
            larger = Table(g, states, made.successors + [successors],
                           made.choices + [g.choices(state)])
            at = rng.randint(1, s)
            yield larger.text()
            yield larger.reordered([*range(at), s, *range(at, s)]).text()


def digit_changes(text):
    """Each byte in the place of a digit, and lines that are no frames."""
    for value in range(256):
        yield text[:1] + bytes([value]) + text[2:]
    for value in b"/:@Gaf`\r \n\0":
        for at in (0, len(text) // 2, len(text) - 2, len(text) - 1, len(text)):
            yield text[:at] + bytes([value]) + text[at:]
            yield text[:at] + bytes([value]) + text[at + 1:]
    lines = text.split(b"\n")[:-1]
    for i, line in enumerate(lines):
        for other in (b"", b" ", line[1:], line + b"0", line + b"\r", b" " + line, line.lower()):
            yield b"".join(x + b"\n" for x in lines[:i] + [other] + lines[i + 1:])
        yield b"".join(x + b"\n" for x in lines[:i]) + line
    yield from (b"", b"\n", b"\n\n", b"0", b"00", b"0\n", b"00\n", b"000\n", b"0000\n", b"\xff")


def filled(text):
    """The text with further frames up to the limit."""
    while len(text) < TEXT_LIMIT:
        digits = min(TEXT_LIMIT - len(text) - 1, DIGIT_LIMIT)
        text += b"0" * (digits - 3 * (digits % 2)) + b"\n"
    return text


# Cases

def unsound_cases():
    """Grammars that are not sound, with tables that are right but for that."""
    for text in ("20 2101", "20 21", "2001 210121 21", "2001 2122 22", "2021 2101 22", "20 22 2101",
                 "2021 2102 2223 2322 22", "2001 212101", "2001 2122 2221", "200121", "2020",
                 "202001", "2021 2120", "2021 20 2122 2222", "2021 2022 20 22 2121", "200122",
                 "2001 2102 2203 2320", "2021 2123 23 2223", "20 202220 22 2323", "2021 2101 2422",
                 "2021 2101 23 24", "2021 2101 2302 242302", "202123 2101 23 222301"):
        rules = rules_of(text)
        t, n = size_of(rules)
        for k in (1, 2):
            for n_claimed in (n, n + 1):
                yield text_of_table(table(k, rules, t, n_claimed))


def limit_cases():
    """Both sides of every limit."""
    frames = frames_of(build(*named("t")))
    for i, values in enumerate(([0, 1, 2, 3], [0, 1, 2, 20, 21], [0, 1, 2, 24, 25],
                                [0, 1, 3, 60, 61], [0, 1, 5, 200, 201]), 1):
        for value in values:
            yield changed(frames, 0, frames[0][:i] + [value] + frames[0][i + 1:])
    yield table(*SMALLEST).reordered([0]).text()  # one state
    yield text_of([[1, 1, 1, 1, 1, 0], [2, 32]])  # no state
    yield text_of([[1, 1, 1, 1, 0, 1], [3, 0, 1], [4, 31, 0], [5], [6]])  # no rule
    yield table(3, *SMALLEST[1:]).text()
    for k in (1, 2):
        grammars = [([(START, ())], t, 1) for t in (0, 1)]
        grammars += [([(START, (a + 1,)) for a in range(t)], t, 1) for t in (1, 20, 21)]
        grammars += [([(START + a, (1, START + a + 1)[:2 * (a + 1 < n)]) for a in range(n)], 1, n)
                     for n in (1, 24, 25)]
        grammars += [([(START + j % 4, (1 + j // 4, START + j + 1)[:1 + (j < 3)])
                       for j in range(p)], 20, 4) for p in (59, 60, 61)]
        grammars += [([(START, (x,) * length), (33, (2, 33)), (33, (1,))][:1 + 2 * (x > 1)],
                      2, 1 + (x > 1)) for length in (5, 6, 7) for x in (1, 33)]
        yield from (table(k, *grammar).text() for grammar in grammars)
        for count, p in ((199, 60), (200, 34), (200, 60), (201, 34), (201, 56), (201, 57)):
            yield table(k, fence(count, p), 20, 4, 201).text()
        yield table(k, ALL_WORDS, 20, 2).text()
    words = frames_of(table(2, ALL_WORDS, 20, 2).text())
    for number, frame in enumerate(words):
        if frame[0] in (4, 6) and len(frame) > 800:  # long frames with one entry less or changed
            yield changed(words, number, frame[:-ENTRY_SIZE[frame[0]]])
            yield changed(words, number, frame[:-1] + [frame[-1] ^ 1])
    yield table(2, choice_count(20, 17, 3), 20, 22).text()  # 1,023 choices: 4,093 bytes
    yield table(2, choice_count(17, 15, 4), 20, 19).text()  # 1,024 choices: 4,097 bytes
    small = text_of(frames)
    for count in (8190, 8191, 8192, 8193, 8194):
        yield b"0" * count + b"\n"
        yield small + b"0" * count + b"\n"
    for count in (860, 861, 862, 863):
        yield b"00\n" * count
        yield b"00\n" * count + b"00"
        yield b"00\n" * (count - 1) + b"0\n"
        yield small + b"06\n" * (count - len(frames))
    largest = frames_of(table(1, fence(200, 60), 20, 4).text())  # 861 frames
    yield text_of(largest[:-1])
    yield text_of(largest + [[6]])
    yield changed(largest, 860, [6, 32, 1, 0, 0])


def some_change(frames, count, rng):
    """`count` bytes changed, where possible so that all frames remain as defined."""
    for _ in range(12):
        other = [list(frame) for frame in frames]
        for _ in range(count):
            frame = rng.choice(rng.choice((other, other[1:], [f for f in other if f[0] > 2])))
            at = rng.randrange(len(frame))
            frame[at] = rng.choice((frame[at] ^ 1, frame[at] + 1, frame[at] - 1, rng.choice(frame),
                                    rng.randrange(256))) % 256
        text = text_of(other)
        if other != frames and not outcome(text).startswith("refused 4"):
            break
    return text


def random_cases(rng, accepted, refused):
    """Random grammars: their tables, the same renumbered, and with bytes changed."""
    left = {"a": accepted, "r": refused}
    while any(left.values()):
        rules, t, n = random_rules(rng)
        for k in (1, 2):
            made = table(k, rules, t, n, 40) if is_sound(rules, t, n) else None
            kind = made and outcome(made.text())[0]
            if made and left[kind]:
                left[kind] -= 1
                renumbered = made.reordered(made.allowed_order(rng))
                yield made.text()
                yield renumbered.text()
                yield from (some_change(renumbered.frames(), count, rng) for count in (1, 1, 2))


def random_tables(rng):
    """Tables of grammars of many shapes, without end; where several rules fit a word, all or the lowest are chosen."""
    while True:
        k, rules, t, n = grammars.grammar(rng)
        made = table(k, rules, t, n, rng.choice((30, 30, 30, STATE_LIMIT)), rng.choice((1, 1, grammars.MOST_RULES)))
        if made:
            yield made.reordered(made.allowed_order(rng))


def text_of_table(made):
    """Its text; a state that has no word gets one, so that all frames are as defined."""
    return made.text().replace(b"\n04\n", b"\n041F00\n")


def shaped_cases(rng, count):
    """Tables of grammars of many shapes, and the same with bytes changed."""
    for made in itertools.islice(random_tables(rng), count):
        yield text_of_table(made)
        yield from (some_change(made.frames(), bytes_changed, rng) for bytes_changed in (1, 2))


def named_cases(rng):
    """The tables of the named grammars, also with other numbers for their states."""
    for name in NAMED:
        made = table(*named(name))
        yield made.text()
        yield table(*named(name), most=60).text()
        for _ in range(3):
            yield made.reordered(made.allowed_order(rng)).text()
    renumbered = build(*named("t"), order=[0, 1, 2, 4, 3])
    yield renumbered
    yield renumbered.replace(b"030000\n040200", b"030000\n041F00")
    yield build(*named("t")).replace(b"030100\n040100", b"030100\n041F00")


def damaged_bytes(rng):
    values = [*range(36), 60, 61, 200, 201, 255]
    yield from byte_changes(frames_of(build(*SMALLEST)), lambda old: values)
    for name in ("t", "nested", "left_recursive_k2"):
        frames = frames_of(build(*named(name)))
        yield from byte_changes(frames, lambda old: (old + 1, max(old, 1) - 1, 0, 31))
    for name in ("not_strong_k2", "lines", "early_refusal"):
        frames = frames_of(build(*named(name)))
        yield from byte_changes(frames, lambda old: rng.choices((old + 1, old ^ 2, 1, 2)))


def damaged_frames(rng):
    for name in ("t", "nested", "not_strong_k2", "left_recursive_k1"):
        made = table(*named(name))
        yield from frame_changes(made.frames(), rng)
        yield from entry_changes(made.frames(), rng)


def damaged_states(rng):
    for name in ("t", "nested", "not_strong_k2", "left_recursive_k1", "loop"):
        texts = list(dict.fromkeys(state_changes(table(*named(name)), rng)))
        yield from texts
        yield from (some_change(frames_of(rng.choice(texts)), 1, rng) for _ in range(30))


def cases(full=False):
    """All cases, or those that are stored: of the damaged and random ones each second or third."""
    def thinned(texts, step):
        return itertools.islice(texts, 0, None, 1 if full else step)

    rng = random.Random(20)
    yield from named_cases(rng)
    yield from thinned(damaged_bytes(rng), 3)
    for name in ("heating1", "heating2", "not_strong_k1"):
        frames = frames_of(build(*named(name)))
        yield from (some_change(frames, 1, rng) for _ in range(35))
    yield from thinned(damaged_frames(rng), 3)
    yield from thinned(damaged_states(rng), 2)
    yield from digit_changes(build(*SMALLEST))
    yield from unsound_cases()
    yield from limit_cases()
    yield build(2, chain(4), 20, 24)  # 200 states, most with 400 words or more
    yield from thinned(random_cases(rng, 200, 60), 2)
    yield from shaped_cases(random.Random(21), 300)


# The largest tables and the longest texts

def chain(copies, more=()):
    """For k = 2 a grammar whose table has 196 + `copies` states, most with 400 words or more.

    33 is any token, and each of 34 to 54 holds the next five times, so that all 400 pairs of
    tokens stand before nearly each dot; a text is empty, one token, or longer: all 421 words.
    """
    rules = [(START, (34,) * copies + (START,)), (START, (33,)), (START, ())] + ANY_TOKEN
    rules += [(a, (a + 1,) * 5 + (33,)) for a in range(34, 55)] + [(55, (33,) * 6)]
    return rules + list(more)


def thousand(short):
    """The like with 1,000 choices in most states: 55 is one of 10 tokens and any token."""
    rules = [(START, (34,) * 5 + (START,)), (START, ())] + ANY_TOKEN
    rules += [(a, (a + 1 if a < 54 else 33,) * (4 if a < 34 + short else 5) + (55,))
              for a in range(34, 55)]
    return rules + [(55, (c, 33)) for c in range(1, 11)]


def late_changes(text):
    """A byte changed in the last frame of each kind that is not empty, and the last one lost."""
    frames = frames_of(text)
    for tag in ENTRY_SIZE:
        number = max(i for i, f in enumerate(frames) if f[0] == tag and len(f) > 1)
        frame = frames[number]
        yield changed(frames, number, frame[:-1] + [frame[-1] ^ 1])
    yield text_of(frames[:-1])


def heavy_cases():
    for text in (build(*named("t")), build(2, chain(4), 20, 24)):
        yield filled(text)
        yield filled(text) + b"\n"
    full = build(2, chain(4), 20, 24)
    yield full
    yield from late_changes(full)
    twin = table(2, chain(3), 20, 24)
    yield twin.reordered([*range(199), 198]).text()  # the last state is equal to the one before
    alone = (frozenset({(0, 0)}), frozenset(twin.states[1][1]))
    yield Table(twin.grammar, twin.states + [alone], twin.successors + [{}],
                twin.choices + [set()]).text()  # the last state is no successor
    yield build(2, chain(4, [(55, (33,))]), 20, 24)  # two rules fit, but in a late state only
    yield build(2, thousand(6), 20, 24)
    yield build(2, thousand(6)[::-1], 20, 24)
    broad = (fence(168, 38, 36) + [(a, (a + 1,)) for a in range(36, 55)]
             + rules_of("370101 370201"))  # most states have a next for 20 nonterminals
    yield build(2, broad, 20, 24)
    yield from late_changes(build(2, broad[::-1], 20, 24))


def write_cases(folder, texts):
    texts = list(dict.fromkeys(texts))  # each text once
    (folder / "stdin").write_bytes(b"".join(b"%d\n" % len(text) + text for text in texts))
    (folder / "stdout").write_text("".join(outcome(text) + "\n" for text in texts))


def write_stored():
    write_cases(CRATES / "table_cases", cases())
    text = build(*named("t"))
    (CRATES / "check_table/stdin").write_bytes(text)
    (CRATES / "check_table/stdout").write_text(outcome(text) + "\n")


def counts(texts):
    """A line for each number of a refusal; 0 stands for accepted tables."""
    numbers = Counter(int(line.split()[1]) if line.startswith("refused") else 0
                      for line in map(outcome, texts))
    return "\n".join("%d: %d" % number for number in sorted(numbers.items()))


def main():
    options = argparse.ArgumentParser(description=__doc__,
                                      formatter_class=argparse.RawDescriptionHelpFormatter)
    options.add_argument("--random", type=int, default=0)
    options.add_argument("--seed", type=int, default=1)
    options.add_argument("--heavy", type=pathlib.Path)
    options.add_argument("--count", action="store_true")
    chosen = options.parse_args()
    if chosen.count:
        texts = list(dict.fromkeys(cases()))
        print(counts(texts), "%d bytes" % sum(map(len, texts)), sep="\n")
    elif chosen.random:
        texts = random_cases(random.Random(chosen.seed), chosen.random, chosen.random)
        write_cases(CRATES / "table_cases", texts)
    elif chosen.heavy:
        write_cases(chosen.heavy, itertools.chain(cases(full=True), heavy_cases()))
    else:
        write_stored()


if __name__ == "__main__":
    main()
