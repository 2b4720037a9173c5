#!/usr/bin/env python3
"""Writes the scanner's test vectors: sheets, and the listings that they have to give.

The listings come from the regular expressions below, not from the product. Run it in the repository's top folder:

    python3 tools/sheet_cases.py

It writes stdin and stdout of the crates sheet_cases (a netstring a sheet) and list_tokens (one sheet with every kind).
With --random N --seed S it writes N further random sheets in place of the stored ones, for a comparison by hand.
"""
import argparse
import pathlib
import random
import re

NAMES = ("number word name colon equals comma semicolon minus zone curve set from to off line-end comment").split()
WORDS = {b"zone": 9, b"curve": 10, b"set": 11, b"from": 12, b"to": 13, b"off": 14}
MARKS = {b":": 4, b"=": 5, b",": 6, b";": 7, b"-": 8}
TOKEN = re.compile(
    rb"(?P<number>[0-9]+)|(?P<word>[a-z]+)|(?P<name>\"[^\"#\n]*\")|(?P<mark>[:=,;-])|(?P<line>\n)|(?P<comment>#[^\n]*)"
)
MOST_BYTES = 60_000
MOST_RUN = 32


def shown(text: bytes) -> str:
    return "".join(chr(b) if 32 <= b <= 126 and b != 92 else "\\x%02X" % b for b in text)


def place(sheet: bytes, at: int) -> str:
    line_start = sheet.rfind(b"\n", 0, at) + 1
    return "%d:%d" % (sheet.count(b"\n", 0, at) + 1, at - line_start + 1)


def kind_of(match: re.Match) -> int:
    text = match.group()
    if match.lastgroup == "number":
        return 1
    if match.lastgroup == "word":
        return WORDS.get(text, 2)
    if match.lastgroup == "name":
        return 3
    if match.lastgroup == "mark":
        return MARKS[text]
    return 15 if match.lastgroup == "line" else 16


def listing(sheet: bytes) -> str:
    if len(sheet) > MOST_BYTES:
        return "refused 18 %d: more than 60,000 bytes\n" % len(sheet)
    lines, at = [], 0
    while at < len(sheet):
        if sheet[at] in b" \t":
            at += 1
            continue
        here, match = place(sheet, at), TOKEN.match(sheet, at)
        if match is None:
            quote = sheet[at] == ord('"')
            lines.append("refused %s: %s" % (("20 " if quote else "19 ") + here, "quote not closed" if quote else "byte of no class"))
            break
        kind, text = kind_of(match), match.group()
        if match.lastgroup in ("number", "word") and len(text) > MOST_RUN:
            lines.append("refused 21 %s: word or number over 32 bytes" % here)
            break
        line = "%s %d %s" % (here, kind, NAMES[kind - 1])
        lines.append(line + " " + shown(text) if kind in (1, 2, 3, 16) else line)
        at = match.end()
    else:
        lines.append("end " + place(sheet, len(sheet)))
    return "".join(line + "\n" for line in lines)


EVERY_KIND = b"""# North wing, second floor
zone "north wing": hall, "flat 2", attic;
curve winter: 20:35, 10:42, 0:50; # fitted by hand
set night = 18 from 22 to 6;
\tset pump = off;
set band = 20-24; # "quoted" \\ and \xc3\xa9 in a comment
set name = "caf\xc3\xa9 \\ 3";
"""


def edge_cases() -> list:
    words = [b"zone", b"curve", b"set", b"from", b"to", b"off"]
    cases = [b"", b"\n", b"a", b"a\n", b" ", b"\t \t", b"\n\n\n", b"a\n\n b", EVERY_KIND, EVERY_KIND.rstrip(b"\n")]
    cases += words + [w + b"x" for w in words] + [w[:-1] for w in words] + [w + b"0" for w in words]
    cases += [b"Zone", b"zonezone", b"zone zone", b"z\x6fne", b"zone:curve=set,from;to-off"]
    # runs on both sides of their limit
    for n in (1, 31, 32, 33, 64):
        cases += [b"a" * n, b"7" * n, b"x" * n + b" y", b"5" * n + b"a", b'"' + b"n" * n + b'"', b"#" + b"c" * n]
    cases += [b"a" * 32 + b"1" * 32, b"ok\n  " + b"b" * 33, b"ok 12 " + b"3" * 40 + b"\nz"]
    # names and comments
    cases += [b'""', b'"a"', b'"a', b'"', b'x "ab#c"', b'x "ab\nc"', b'x\n\n  "ab', b'"a""b"', b'"a" "b', b'"\x00\x7f\x80\xff"']
    cases += [b'"zone"', b'"12"a', b'a"b"c', b"#", b"# a\n", b"#\n#\n", b'# "open', b'a#b"c\nd', b"# \xff\x00\x80 \\ end\nx", b"##"]
    # bytes of no class, at their places
    cases += [b"A", b"a A", b"a\n b\n  C", b"_", b"zone.", b"1.5", b"\x00", b"\x0b", b"\x0d\n", b"a\x0d", b"\x1f", b"!", b"/", b"<", b">", b"@"]
    cases += [b"[", b"`", b"{", b"~", b"\x7f", b"\x80", b"\xff", b"a\xc3\xa9", b"\\"]
    cases += [bytes([b]) for b in range(256) if bytes([b]) not in cases]
    # signs, ranges and marks
    cases += [b"-5", b"a-5", b"--5", b"20-24", b"-", b"- 5", b":=,;-", b"::", b"=-="]
    # the limit of a sheet
    cases += [b" " * 60_000, b" " * 60_001, b"a" + b" " * 59_998 + b"b", b"#" + b" " * 59_999, b"\n" * 300 + b" " * 59_699 + b"z"]
    cases += [b" " * 59_999 + b"!", b" " * 60_000 + b"!", b"1 " * 40_000, b" " * 70_000]
    return cases


def random_sheet(rng: random.Random) -> bytes:
    pieces = [b"zone", b"curve", b"set", b"from", b"to", b"off", b"hall", b"a", b"18", b"0", b":", b"=", b",", b";", b"-", b" ", b" ", b"\t"]
    pieces += [b"\n", b'"', b'"flat 2"', b"#", b"# note", b'"#"', b"\xc3\xa9", b"A", b"x" * 30, b"9" * 31, b"\\"]
    weights = [4] * 20 + [1, 4, 1, 2, 1, 1, 1, 2, 2][: len(pieces) - 20]
    weights += [1] * (len(pieces) - len(weights))
    return b"".join(rng.choices(pieces, weights, k=rng.randint(1, 40)))


def main() -> None:
    options = argparse.ArgumentParser(description=__doc__, formatter_class=argparse.RawDescriptionHelpFormatter)
    options.add_argument("--random", type=int, default=0)
    options.add_argument("--seed", type=int, default=1)
    chosen = options.parse_args()
    rng = random.Random(chosen.seed)
    crates = pathlib.Path("crates")
    if chosen.random:
        cases = [random_sheet(rng) for _ in range(chosen.random)]
    else:
        cases = edge_cases() + [random_sheet(rng) for _ in range(300)]
        (crates / "list_tokens/stdin").write_bytes(EVERY_KIND)
        (crates / "list_tokens/stdout").write_text(listing(EVERY_KIND))
    stdin = b"".join(b"%d:%s,\n" % (len(sheet), sheet) for sheet in cases)
    stdout = "".join("case %d\n%s" % (number, listing(sheet)) for number, sheet in enumerate(cases, 1))
    (crates / "sheet_cases/stdin").write_bytes(stdin)
    (crates / "sheet_cases/stdout").write_text(stdout)


if __name__ == "__main__":
    main()
