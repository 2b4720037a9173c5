#!/usr/bin/env python3
"""Brings the repository's own names to today's spelling, after the kit's port.py: definitions, lemmas, fields and constructors
in snake case, types and facts in camel case. It renames what the .antt files declare, in them, in the clauses of .rt files and in
must-fail edits; names that Rust source gives stay, and so do texts and comments. It also renames the crate `bytes`, since the kit has a
library of that name.

usage: respell.py [--table]        at the top of the repository; --table prints the renamings and writes nothing
"""
import pathlib
import re
import subprocess
import sys

NAME = r"[^\s(){}\[\];,.@\"«»`λ:]+"
DECLARED = re.compile(rf"^\s*(?:(?:pub|abbrev|unfoldable|data|record)\s+)*({NAME})\s*(?=[:({{])", re.M)
LOCAL = re.compile(rf"\blet\s+({NAME})\s*(?=[:=])")
MADE = re.compile(rf"^\s*(?:(?:pub|abbrev)\s+)*({NAME})\s*:\s*goal\.", re.M)
IMPORTED = re.compile(r"\buse (?:Rattle\.std|mathlib|seplogic|denote|lib)\.\S*?\{([^}]*)\}")
QUIET = r'"(?:\\.|[^"\\])*"|(?<![^\s(){}])(?:--|//)(?:[^\S\n][^\n]*|[/!][^\n]*)?$'
# a path behind these begins with names that the check makes
HEADS = {"c", "l", "w", "goal"}
HOLDERS = {"args", "initial", "new", "auto", "ranges", "fn"}
CRATES = {"bytes": "byte_classes"}


def files(*endings):
    command = ["git", "ls-files", "--cached", "--others", "--exclude-standard", "-z"]
    listed = subprocess.run(command, capture_output=True, check=True).stdout.decode().split("\0")
    return [path for path in map(pathlib.Path, filter(None, listed)) if path.suffix in endings and path.is_file()]


def spelled(name, taken):
    parts = name.split("-")
    if name[0].isupper():
        return "".join(part[:1].upper() + part[1:] for part in parts)
    new = "_".join(parts)
    return new + "_lem" if new in taken else new


def table():
    ours, made, taken = set(), set(), set()
    for path in files(".antt", ".rt"):
        text = path.read_text()
        for items in IMPORTED.findall(text):
            taken |= {item.strip() for item in items.split(",")}
        if path.suffix == ".antt":
            made |= set(MADE.findall(text))
            ours |= set(DECLARED.findall(text)) | set(LOCAL.findall(text))
    ours = {name for name in ours if re.fullmatch(r"[A-Za-z][\w']*(-[\w']+)+", name)}
    return {name: spelled(name, taken) for name in sorted(ours - made - taken)}


def is_made(path):
    """Whether the check makes the name behind this path."""
    parts = path.split(".")
    return parts[0] in HEADS and (len(parts) == 1 or len(parts) == 2 and parts[1] in HOLDERS)


def renamed(text, names):
    def one(match):
        if match[0][0] == '"' or match[0].startswith(("--", "//")):
            return match[0]
        path = re.search(r"([^\s(){}\[\],]+)\.$", text[max(0, match.start() - 200) : match.start()])
        return match[0] if path and is_made(path[1]) else names.get(match[0], match[0])

    return re.sub(rf"{QUIET}|{NAME}", one, text, flags=re.M)


def main():
    names = table()
    if "--table" in sys.argv:
        print("\n".join(f"{old}\t{new}" for old, new in names.items()))
        return
    for path in files(".antt", ".rt", ".edit"):
        text = path.read_text()
        new = renamed(text, names)
        for old, to in CRATES.items():
            new = re.sub(rf"\bRattle\.{old}\b", f"Rattle.{to}", new)
            if path.suffix in (".rt", ".edit"):
                new = re.sub(rf"\buse {old}::", f"use {to}::", new)
        if new != text:
            path.write_text(new)
    for old, to in CRATES.items():
        if pathlib.Path("crates", old).is_dir():
            subprocess.run(["git", "mv", f"crates/{old}", f"crates/{to}"], check=True)
        listing = pathlib.Path("crates.txt")
        lines = listing.read_text().splitlines()
        lines = [line if line.startswith("#") else re.sub(rf"\b{old}\b", to, line) for line in lines]
        listing.write_text("\n".join(lines) + "\n")


main()
