#!/usr/bin/env python3
"""Writes sheets of the heating language, for the measurements: `sheets.py FOLDER [SEED]`.

Each sheet has at most 60,000 bytes and as many entries as fit, of one style: short entries, long names, or many
comments, and one of all styles by turns. Beside each stands one that is cut off in its last entry, and one with a
fault in the middle.
"""
import pathlib
import random
import sys

MOST = 60_000
LETTERS = "abcdefghijklmnopqrstuvwxyz"
KEYWORDS = {"zone", "curve", "set", "from", "to", "off"}


class Style:
    """How an entry is written: how long its words are, how it is spaced, and how often a comment follows."""

    def __init__(self, word, quoted, quoted_length, items, blank, comment):
        self.word, self.quoted, self.quoted_length = word, quoted, quoted_length
        self.items, self.blank, self.comment = items, blank, comment


STYLES = {
    "short": Style((1, 3), 0.0, (0, 0), (1, 3), "", 0.0),
    "names": Style((12, 32), 0.6, (24, 60), (2, 6), " ", 0.02),
    "comments": Style((4, 9), 0.2, (6, 14), (1, 4), " ", 0.9),
    "plain": Style((3, 9), 0.25, (5, 16), (1, 5), " ", 0.15),
}


class Writer:
    def __init__(self, rng, style):
        self.rng, self.style = rng, style

    def word(self):
        while True:
            word = "".join(self.rng.choices(LETTERS, k=self.rng.randint(*self.style.word)))
            if word not in KEYWORDS:
                return word

    def id(self):
        if self.rng.random() >= self.style.quoted:
            return self.word()
        length = self.rng.randint(*self.style.quoted_length)
        return '"' + "".join(self.rng.choices(LETTERS + "  0123456789.", k=length)) + '"'

    def number(self, most):
        return str(self.rng.randint(0, most))

    def listed(self, item):
        return ("," + self.style.blank).join(item() for _ in range(self.rng.randint(*self.style.items)))

    def zone(self):
        blank = self.style.blank
        return f"zone {self.id()}:{blank}{self.listed(self.id)};"

    def curve(self):
        blank = self.style.blank
        return f"curve {self.id()}:{blank}{self.listed(lambda: self.number(40) + ':' + self.number(90))};"

    def set(self):
        blank = self.style.blank
        value = self.rng.choice(["off", self.number(30)])
        hours = self.rng.choice(["", f" from {self.number(23)} to {self.number(23)}"])
        return f"set {self.id()}{blank}={blank}{value}{hours};"

    def entry(self):
        comment = ""
        if self.rng.random() < self.style.comment:
            comment = " # " + "".join(self.rng.choices(LETTERS + "     ,.", k=self.rng.randint(10, 70)))
        return self.rng.choice([self.zone, self.curve, self.set])() + comment + "\n"


def sheet(writers):
    """Entries by the writers in turn, as many as fit."""
    entries, size = [], 0
    while True:
        entry = writers[len(entries) % len(writers)].entry()
        if size + len(entry) > MOST:
            return entries
        entries.append(entry)
        size += len(entry)


def main():
    folder = pathlib.Path(sys.argv[1])
    seed = int(sys.argv[2]) if len(sys.argv) > 2 else 1
    folder.mkdir(parents=True, exist_ok=True)
    writers = {name: [Writer(random.Random(f"{seed} {name}"), style)] for name, style in STYLES.items()}
    writers["mixed"] = [Writer(random.Random(f"{seed} mixed {name}"), style) for name, style in STYLES.items()]
    for name, those in writers.items():
        entries = sheet(those)
        middle = len(entries) // 2
        texts = {
            "": entries,
            "-cut": entries[:-1] + [entries[-1].partition(";")[0] + "\n"],
            "-fault": entries[:middle] + ["set day = 2O;\n"] + entries[middle + 1:],
        }
        for suffix, lines in texts.items():
            (folder / f"{name}{suffix}.sheet").write_text("".join(lines)[:MOST])


if __name__ == "__main__":
    main()
