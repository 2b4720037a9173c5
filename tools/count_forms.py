#!/usr/bin/env python3
"""Counts the places in src/ that docs/DESIGN-PASS.md speaks of, point by point.

    python3 tools/count_forms.py [-v] [REPOSITORY]

With -v it prints each place. It finds candidates by their text; which of them are places is for a reader.
"""
import collections
import glob
import os
import re
import sys

FUNCTION = re.compile(r"\bfn ([a-z_0-9]+)(<[^(]*>)?\(([^)]*)\)([^{;]*?)\n?\s*(?=\{|;|\n\s*(?:requires|ensures))", re.S)


def sources(root):
    for path in sorted(glob.glob(os.path.join(root, "crates/*/src/**/*.rt"), recursive=True)):
        yield os.path.relpath(path, root), open(path, encoding="utf-8").read()


def lines(root, pattern, but=None):
    found = []
    for path, text in sources(root):
        for number, line in enumerate(text.splitlines(), 1):
            if re.search(pattern, line) and not (but and re.search(but, line)):
                found.append(f"{path}:{number}: {line.strip()}")
    return found


def functions(root):
    """Each function with its crate, parameters, clauses and body."""
    for path, text in sources(root):
        crate = path.split(os.sep)[1]
        for match in FUNCTION.finditer(text):
            rest = text[match.end():]
            opening = re.search(r"^\s*\{", rest, re.M)
            if opening is None:
                continue
            clauses, at, depth = rest[:opening.start()], opening.end(), 1
            while at < len(rest) and depth:
                depth += {"{": 1, "}": -1}.get(rest[at], 0)
                at += 1
            line = text.count("\n", 0, match.start()) + 1
            parameters = [re.sub(r"\s+", " ", p.strip()) for p in match.group(3).split(",") if ":" in p]
            yield crate, path, line, match.group(1), parameters, clauses, rest[opening.end():at - 1]


def twins(root):
    """Functions whose bodies are equal but for names and numbers, and constants of one name and value."""
    shapes = collections.defaultdict(list)
    for _, path, line, name, _, _, body in functions(root):
        code = re.sub(r"//.*", "", body)
        shape = re.sub(r'"[^"]*"|\b\d[\d_a-zA-Z]*\b|\b[A-Za-z_][A-Za-z_0-9]*\b', "x", code)
        shape = re.sub(r"\s+", "", shape)
        if shape.count("x") >= 8:
            shapes[shape].append(f"{path}:{line}: {name}")
    found = [" = ".join(group) for group in shapes.values() if len(group) > 1]
    constants = collections.defaultdict(list)
    for place in lines(root, r"^\s*(pub )?(const|static) [A-Z_]+:"):
        path, number, code = place.split(":", 2)
        match = re.search(r"(?:const|static) ([A-Z_]+): [^=]*= (.*)", code)
        if match:
            constants[match.group(1), match.group(2)].append(f"{path}:{number}")
    found += [f"{name} = {value} at {', '.join(at)}" for (name, value), at in constants.items() if len(at) > 1]
    return found


def repeated(root):
    """Clauses that three or more functions of a crate require, and pairs of parameters that three or more take."""
    clauses, pairs = collections.defaultdict(set), collections.defaultdict(set)
    for crate, _, line, name, parameters, text, _ in functions(root):
        for clause in re.finditer(r"requires(?: [a-z_]+)? \{ (.*?) \}\s*(?=$|requires|ensures)", text, re.S | re.M):
            clauses[crate, re.sub(r"\s+", " ", clause.group(1))].add(f"{name}:{line}")
        ordered = sorted(set(parameters))
        for one in ordered:
            for other in ordered[ordered.index(one) + 1:]:
                pairs[crate, f"{one}, {other}"].add(f"{name}:{line}")
    found = []
    for table, word in ((clauses, "requires"), (pairs, "takes")):
        for (crate, what), users in sorted(table.items()):
            if len(users) >= 3:
                found.append(f"{crate}: {word} {what}: {len(users)} functions")
    return found


def proofs(root):
    files = glob.glob(os.path.join(root, "crates/*/proofs/**/*.antt"), recursive=True)
    count = sum(len(open(f, encoding="utf-8").read().splitlines()) for f in files)
    answers = [f for f in files if f.endswith("Answers.antt")]
    return [f"{count} lines of proofs, {len(answers)} answer files, {len(files)} files"]


POINTS = [
    ("1 enums", lambda r: lines(r, r"^\s*(pub(\(crate\))? )?enum ")),
    ("1 numbers for kinds", lambda r: lines(r, r"fn [a-z_]+(<[^>]*>)?\(([^)]*, )?(kind|section|code|row): u(8|16|size)")),
    ("1 numbers that say nothing", lambda r: lines(r, r"fn [a-z_]+(<[^>]*>)?\(\) -> u8")),
    ("2 bodies equal but for names and numbers", twins),
    ("3 loops", lambda r: lines(r, r"^\s*('[a-z_]+: )?(while|loop)\b|for [a-z_]+ in [^{]*\.\.")),
    ("4 equality, order, conversion and printing in functions", lambda r: lines(
        r, r"fn (same|eq|ne|cmp|before|is_equal|is_last|is_line_end|flag|fmt|from|try_from|reason[a-z_]*|[a-z]+_value|place_of|tag_of|section_at|name_of|hex_digit)\b")),
    ("5 clauses and parameters of three functions", repeated),
    ("6 numbers beside buffers, and fixed arrays", lambda r: lines(
        r, r"\b(frames|bytes|len|count): (usize|u8|u16|u32)|: \[[A-Za-z<>0-9' ]+; [0-9A-Z_]+\]|-> \[[A-Za-z<>0-9' ]+; [0-9A-Z_]+\]", r"^\s*(pub )?static")),
    ("7 switches on a step", lambda r: lines(r, r"\b(StateRow|Span)::")),
    ("8 proofs", proofs),
]


def main():
    arguments = [a for a in sys.argv[1:] if a != "-v"]
    root = arguments[0] if arguments else "."
    for name, find in POINTS:
        found = find(root)
        print(f"{name}: {found[0] if name.startswith('8') else len(found)}")
        if "-v" in sys.argv:
            for place in found:
                print(f"    {place}")


main()
