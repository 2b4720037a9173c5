#!/usr/bin/env python3
"""Compares the answers of the library and its competitors, and prints what each takes: `measure.py OUT`.

OUT is a folder that bench/build filled. Instructions are counted by callgrind; of two runs that differ only in how often
something is done, the difference is what it takes, without the start of the program.
"""
import pathlib
import re
import subprocess
import sys
import time

from stack import bounds

OUT = pathlib.Path(sys.argv[1])
STYLES = ["short", "plain", "comments", "names", "mixed"]
OURS, LOOP, FLEX = "ours", "loop", ["flex-default", "flex-full", "flex-fast"]
TITLES = {"ours": "ours", "loop": "plain C", "flex-default": "flex", "flex-full": "flex -Cf", "flex-fast": "flex -CF"}
REPEATS = 5
HEATING = OUT / "tables/heating1.hex"


def sheet(name):
    return OUT / f"sheets/{name}.sheet"


def output(*words):
    return subprocess.run([str(word) for word in words], check=True, capture_output=True, text=True).stdout


def driver(name, level="O2"):
    return OUT / f"{name}-{level}"


def numbers(line):
    return dict(re.findall(r"(\w+)=(\S+)", line))


# The answers

def left_parse(reduced, rights):
    """The rules of a left parse, from those of the same tree as they are reduced."""
    stack = []
    for rule in reduced:
        below = sum(x >= 32 for x in rights[rule])
        parts = stack[len(stack) - below:]
        del stack[len(stack) - below:]
        stack.append(([rule], parts))
    (tree,) = stack
    found, todo = [], [tree]
    while todo:
        rule, parts = todo.pop()
        found += rule
        todo += reversed(parts)
    return bytes(found)


def rights():
    frames = [bytes.fromhex(line) for line in HEATING.read_text().split()]
    return [frame[2:] for frame in frames[1:1 + frames[0][4]]]


def answer(name, what, path, rules=None):
    words = [driver(name), what, path, 1] + ([HEATING, rules] if what == "read" else [])
    return output(*words).strip()


def compare_scanning(path):
    answers = {name: answer(name, "scan", path) for name in [OURS, LOOP, *FLEX]}
    if len(set(answers.values())) > 1:
        sys.exit(f"scanning {path} differs: {answers}")


def compare_reading(path):
    """The same end, fault, place and tokens by all; the same left parse, and before a refusal a beginning of the loop's."""
    answers, rules = {}, {}
    for name in [OURS, LOOP, *FLEX]:
        answers[name] = numbers(answer(name, "read", path, OUT / "rules"))
        rules[name] = (OUT / "rules").read_bytes()
    ends = {tuple(found[key] for key in ("number", "fault", "place", "tokens")) for found in answers.values()}
    if len(ends) > 1:
        sys.exit(f"reading {path} differs: {answers}")
    finished = answers[OURS]["number"] == "0"
    same = rules[LOOP] == rules[OURS] if finished else rules[LOOP].startswith(rules[OURS])
    if not same or finished and any(left_parse(rules[name], rights()) != rules[OURS] for name in FLEX):
        sys.exit(f"the rules of {path} differ")


def compare():
    paths = sorted((OUT / "sheets").glob("*.sheet"))
    for path in paths:
        compare_scanning(path)
        compare_reading(path)
    print(f"All answer alike on {len(paths)} sheets.\n")


# Instructions

def collected(*words):
    command = ["valgrind", "--tool=callgrind", "--callgrind-out-file=/dev/null", *map(str, words)]
    found = subprocess.run(command, capture_output=True, text=True, check=True).stderr
    return int(re.search(r"Collected : (\d+)", found)[1])


def taken(name, what, path, *behind, level="O2", repeats=REPEATS):
    """The instructions of one repeat."""
    once, often = (collected(driver(name, level), what, path, times, *behind) for times in (1, 1 + repeats))
    return (often - once) / repeats


def scanning(name, path, level="O2"):
    return taken(name, "scan", path, level=level)


def reading(name, path, table=HEATING, level="O2"):
    return taken(name, "read", path, table, level=level)


def table(titles, rows):
    print("| " + " | ".join(titles) + " |")
    print("|---" * len(titles) + "|")
    for row in rows:
        print("| " + " | ".join(row) + " |")
    print()


def ratio(other, ours):
    return f"{other / ours:.2f}"


def side_by_side(title, measured, names, unit, level):
    """One line a sheet: instructions a byte and a token by ours, a byte by the others, and their ratios to ours."""
    print(f"{title}, instructions a byte, C by gcc -{level}\n")
    rows = []
    for style in STYLES if level == "O2" else STYLES[-1:]:
        path = sheet(style)
        size = path.stat().st_size
        found = numbers(answer(OURS, unit, path, "/dev/null"))
        count = int(found["tokens"]) + (int(found["rules"]) + 1 if unit == "read" else 0)
        costs = {name: measured(name, path, level=level) for name in names}
        rows.append([style, str(count), f"{costs[OURS] / count:.1f}"] + [f"{costs[name] / size:.1f}" for name in names]
                    + [ratio(costs[name], costs[OURS]) for name in names if name != OURS])
    others = [TITLES[name] for name in names if name != OURS]
    each = "moves" if unit == "read" else "tokens"
    table(["sheet", each, f"ours a {each[:-1]}", "ours", *others, *(f"{other} / ours" for other in others)], rows)


def measure_sheets():
    for level in ("O2", "O3"):
        side_by_side("Scanning", scanning, [OURS, *FLEX, LOOP], "scan", level)
    for level in ("O2", "O3"):
        side_by_side("Reading (flex stands with bison)", reading, [OURS, *FLEX[:2], LOOP], "read", level)


def measure_tables():
    print("Loading and checking, instructions\n")
    paths = sorted((OUT / "tables").glob("check-*.hex"), key=lambda path: int(path.stem.split("-")[1]))
    rows = []
    for path in [*paths, HEATING]:
        size = path.stat().st_size
        load, check = (taken(OURS, what, path, repeats=1) for what in ("load", "check"))
        states = int(path.read_bytes()[10:12], 16)
        rows.append([path.stem, str(states), str(size), f"{load:,.0f}", f"{load / size:.1f}", f"{check:,.0f}",
                     f"{check / size:.0f}"])
    table(["table", "states", "bytes of text", "load", "a byte", "check", "a byte"], rows)


def moves_of(path, by):
    found = numbers(output(driver(OURS), "read", path, 1, by))
    return int(found["tokens"]) + int(found["rules"]) + 1 if found["number"] == "0" else None


def measure_moves():
    print("Reading two sheets of 60,000 bytes by growing tables, instructions a move beyond scanning\n")
    paths = [OUT / f"tables/{name}.sheet" for name in ("few", "all")]
    scan, rows = {path: scanning(OURS, path) for path in paths}, []
    for line in (OUT / "tables.txt").read_text().splitlines():
        name, *most = line.split()
        by = OUT / f"tables/{name}.hex"
        moves = {path: moves_of(path, by) for path in paths}
        rows.append([name, *most] + [f"{(reading(OURS, path, by) - scan[path]) / moves[path]:.1f}" if moves[path] else ""
                                     for path in paths])
    table(["table", "states", "words", "successors", "choices", "bytes of text", "two kinds", "twelve kinds"], rows)


# Memory and time

def bound_memory():
    print("Stack that a call takes at most, whatever it is called with, in bytes\n")
    found, outside = bounds(OUT / "libreader_c.a")
    titles = {f"reader_c_{call}": call for call in ("load", "check", "scan", "read")}
    titles["reader_c::readings::read_once"] = "read, without its check"
    table(["call", "stack"], [[title, f"{found[name]:,}"] for name, title in titles.items()])
    code, data, zeros = output("size", OUT / "libreader_c.a").splitlines()[1].split()[:3]
    print(f"Of functions from elsewhere the library calls {' and '.join(outside)}.")
    print(f"It has {int(code):,} bytes of code and constants, and {int(data) + int(zeros)} of variables.\n")


def measure_memory():
    print("Stack and heap taken on `mixed`, in bytes\n")
    rows = []
    for name in (OURS, LOOP, *FLEX[:2]):
        for line in output(OUT / f"{name}-O2-memory", sheet("mixed"), HEATING).splitlines():
            found = numbers(line)
            if found["stack"] != "0" and (name == OURS or line.startswith(("scan", "read"))):
                rows.append([TITLES[name], line.split()[0], found["stack"], found["requests"], found["requested"]])
    table(["by", "call", "stack", "heap requests", "bytes requested"], rows)


def seconds(*words):
    """The least time of some runs."""
    def once():
        start = time.perf_counter()
        output(*words)
        return time.perf_counter() - start
    return min(once() for _ in range(9))


def lasting(name, what, path, *behind, times=200):
    often, once = (seconds(driver(name), what, path, n, *behind) for n in (times, 1))
    return (often - once) / (times - 1)


def measure_times():
    print("Time, as a side remark, least of 9 runs\n")
    path = sheet("mixed")
    scan = {name: lasting(name, "scan", path) for name in (OURS, "flex-full", LOOP)}
    read = {name: lasting(name, "read", path, HEATING) for name in (OURS, "flex-full", LOOP)}
    for title, found in (("scanning", scan), ("reading", read)):
        print(f"- {title} `mixed`: " + ", ".join(f"{TITLES[name]} {1e6 * found[name]:.0f} µs" for name in found))
    largest = OUT / "tables/check-200.hex"
    load, check = lasting(OURS, "load", largest, times=20), lasting(OURS, "check", largest, times=20)
    print(f"- check-200: load {1e3 * load:.1f} ms, check {1e3 * check:.1f} ms")


def main():
    compare()
    measure_sheets()
    measure_tables()
    measure_moves()
    bound_memory()
    measure_memory()
    measure_times()


if __name__ == "__main__":
    main()
