#!/usr/bin/env python3
"""Runs the programs on arguments and input that they cannot use, and compares what they print and their exit status with lines written here.

    python3 tools/misuse.py

The programs have to be built: `rt run < stdin` in a program's crate does it.
"""
import os
import pathlib
import subprocess
import sys
import tempfile

ROOT = pathlib.Path(__file__).resolve().parent.parent
TABLE = ROOT / "crates/read_sheet/data/heating1.hex"
TABLE_TEXT = TABLE.read_bytes()
ACCEPTED = (ROOT / "crates/check_table/stdout").read_bytes()
SMALL_TABLE = (ROOT / "crates/check_table/stdin").read_bytes()
NOT_WHOLE = "it is not whole: a length, its mark, as many bytes and what closes them are wanted"
ONE_ARGUMENT = "one argument is wanted, the name of a table file: read_sheet TABLE < SHEET"
FINISHED = b"finished tokens=0 rules=1 moves=2\n"  # the heating language has an empty sheet
UNFIT = b"refused 12 1:5 tokens=1 rules=2 moves=3: the token or the end cannot stand here\n"
INPUTS = {
    "list_tokens": ("sheet", "SHEET"),
    "check_table": ("table", "TABLE"),
    "sheet_cases": ("batch", "BATCH"),
    "table_cases": ("batch", "BATCH"),
    "reading_cases": ("batch", "BATCH"),
    "sheet_readings": ("batch", "BATCH"),
}
BATCHES = ["sheet_cases", "table_cases", "reading_cases", "sheet_readings"]


def error(message, *causes):
    """An error as `main` prints it: its message, and what caused it."""
    if not causes:
        return f"Error: {message}\n"
    if len(causes) == 1:
        return f"Error: {message}\n\nCaused by:\n    {causes[0]}\n"
    numbered = "".join(f"{i:>5}: {cause}\n" for i, cause in enumerate(causes))
    return f"Error: {message}\n\nCaused by:\n{numbered}"


def framed(content):
    """A case behind a line with the number of its bytes."""
    return b"%d\n" % len(content) + content


class Checks:
    """Runs of programs, and how many of them were not as expected."""

    def __init__(self, folder):
        self.folder = pathlib.Path(folder)
        self.runs = 0
        self.failures = 0

    def run(self, name, arguments=(), given=b"", printed=b"", said="", out=subprocess.PIPE, called=None):
        """Runs a program on bytes or an open file, and compares. Its status has to be 1 just where it says something. It may be called
        by another name than its own."""
        program = ROOT / "crates" / name / "out" / name
        if not program.exists():
            sys.exit(f"{program} is not built: rt run < stdin in crates/{name} builds it")
        words = [called or str(program), *arguments]
        stdin = {"input": given} if isinstance(given, bytes) else {"stdin": given}
        done = subprocess.run(words, executable=program, stdout=out, stderr=subprocess.PIPE, cwd=self.folder, timeout=60, **stdin)
        got = (done.returncode, done.stdout or b"", done.stderr.decode())
        wanted = (1 if said else 0, printed, said)
        self.runs += 1
        if got != wanted:
            self.failures += 1
            print(f"{name} {arguments} {given!r:.60}:\n  wanted {wanted}\n  got    {got}")


def check_arguments(checks):
    """Arguments that are missing, too many, or no text."""
    for name, (_, usage) in INPUTS.items():
        checks.run(name, ["more"], said=error(f"no argument is wanted: {name} < {usage}"))
        checks.run(name, [b"\xff"], said=error("the arguments cannot be read", "invalid data"))
    for arguments in ([], [str(TABLE), "more"]):
        checks.run("read_sheet", arguments, said=error(ONE_ARGUMENT))


def check_names(checks):
    """A program that is called by a name that is no text does its work."""
    table = framed(SMALL_TABLE)
    for name, given, printed in (
        ("list_tokens", b"", b"end 1:1\n"),
        ("check_table", SMALL_TABLE, ACCEPTED),
        ("sheet_cases", b"0:,\n", b"case 1\nend 1:1\n"),
        ("table_cases", table, ACCEPTED),
        ("reading_cases", framed(table), b""),
        ("sheet_readings", framed(table), b""),
    ):
        checks.run(name, given=given, printed=printed, called=b"\xff")


def check_files(checks):
    """A table file that is not there, or no file; standard input that is none; standard output that is full."""
    for name, cause in (("absent.hex", "No such file or directory (os error 2)"), (".", "Is a directory (os error 21)")):
        checks.run("read_sheet", [name], said=error(f"the table file {name} cannot be read", cause))
    names = {**INPUTS, "read_sheet": ("sheet", "")}
    for name, (content, _) in names.items():
        arguments = [str(TABLE)] if name == "read_sheet" else []
        folder = os.open("/", os.O_RDONLY)
        said = error(f"the {content} on standard input cannot be read", "Is a directory (os error 21)")
        checks.run(name, arguments, given=folder, said=said)
        os.close(folder)
    with open("/dev/full", "wb") as full:
        said = error("standard output cannot be written", "No space left on device (os error 28)")
        for name in ("list_tokens", "check_table"):
            checks.run(name, out=full, said=said)
        checks.run("read_sheet", [str(TABLE)], out=full, said=said)


def check_contents(checks):
    """Empty and binary input, and input that is too long: refused in the printed line, with status 0."""
    every_byte, ones = bytes(range(256)), b"\xff" * 300
    checks.run("list_tokens", printed=b"end 1:1\n")
    for given in (every_byte, ones):
        checks.run("list_tokens", given=given, printed=b"refused 19 1:1: byte of no class\n")
        checks.run("check_table", given=given, printed=b"refused 2 1: the line is no frame\n")
    checks.run("list_tokens", given=b" " * 60_001, printed=b"refused 18 60001: more than 60,000 bytes\n")
    checks.run("check_table", printed=b"refused 4 0: the frame is not as defined\n")
    checks.run("check_table", given=b"A" * 1_048_577, printed=b"refused 1 0: the text has over 1048576 bytes\n")
    checks.run("check_table", given=SMALL_TABLE[:-1], printed=b"refused 2 24: the line is no frame\n")
    checks.run("check_table", given=SMALL_TABLE, printed=ACCEPTED)
    table = [str(TABLE)]
    checks.run("read_sheet", table, printed=b"rule 1\n" + FINISHED)
    checks.run("read_sheet", table, given=b"set zone", printed=b"rule 0\nrule 4\ntoken 1:1 11\n" + UNFIT)
    checks.run("read_sheet", table, given=ones, printed=b"refused 15 19 1:1 tokens=0 rules=0 moves=0: byte of no class\n")
    checks.run("read_sheet", table, given=b" " * 60_001, printed=b"refused 18 60001: more than 60,000 bytes\n")
    (checks.folder / "empty.hex").write_bytes(b"")
    (checks.folder / "binary.hex").write_bytes(every_byte)
    checks.run("read_sheet", ["empty.hex"], printed=b"refused 4 0: the frame is not as defined\n")
    checks.run("read_sheet", ["binary.hex"], printed=b"refused 2 1: the line is no frame\n")


def check_batches(checks):
    """Batches that are empty, no batches, or break off within a case; what comes before is printed."""
    broken = error("case 1 of the batch", NOT_WHOLE)
    for name in BATCHES:
        checks.run(name, said=error("the batch on standard input is empty"))
        for given in (b"garbage", bytes(range(256)), b"\xff", b"5", b"5\nabc", b"5:abc,\n", b"\n", b"0123456789\n"):
            checks.run(name, given=given, said=broken)
    for given in (b"3:abcd\n", b"3:abc", b"3:abc,", b"3\nabc,\n"):
        checks.run("sheet_cases", given=given, said=broken)
    second = error("case 2 of the batch", NOT_WHOLE)
    checks.run("sheet_cases", given=b"1:a,\n9:a,\n", printed=b"case 1\n1:1 2 word a\nend 1:2\n", said=second)
    checks.run("table_cases", given=framed(SMALL_TABLE) + b"7\n01", printed=ACCEPTED, said=second)


def check_groups(checks):
    """Batches whose cases are batches: one without a table, and one that breaks off within a list or a sheet."""
    table = framed(TABLE_TEXT)
    for name, content, rule in (("reading_cases", "list", b"1 "), ("sheet_readings", "sheet", b"rule 1\n")):
        checks.run(name, given=framed(b""), said=error("case 1 of the batch", "it has no table"))
        checks.run(name, given=framed(b"7\n01"), said=error("case 1 of the batch", "its table", NOT_WHOLE))
        checks.run(name, given=framed(table))
        said = error("case 2 of the batch", f"its {content} 2", NOT_WHOLE)
        given = framed(table) + framed(table + framed(b"") + b"9\nabc")
        checks.run(name, given=given, printed=rule + FINISHED, said=said)
        checks.run(name, given=framed(framed(b"")), printed=b"refused 4 0: the frame is not as defined\n")


def main():
    with tempfile.TemporaryDirectory() as folder:
        checks = Checks(folder)
        for check in (check_arguments, check_names, check_files, check_contents, check_batches, check_groups):
            check(checks)
    print(f"{checks.runs} runs, {checks.failures} not as expected")
    sys.exit(1 if checks.failures else 0)


if __name__ == "__main__":
    main()
