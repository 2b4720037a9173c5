#!/usr/bin/env python3
"""Plants bugs in the crates, and tells what refuses each: the check of its own crate, or nothing.

tools/planted_bugs/CRATE.txt has the bugs of a crate. A bug is a few lines, with a blank line behind them:

    name: words_of_letters, one word for each bug of the crate
    kind: what sort of slip it is
    what: what it changes, in words
    file: a file of src/
    old: a text of one line that stands in the file once
    new: what stands there in its place; more pairs of old and new may follow

The crates are copied into a scratch folder, which is kept, so that a second run begins with what the first one proved.
There the check is run on the crate with the bug, over what was proved without it. A function is proved against the
contracts of what it calls and not against their bodies, so bugs of different functions are tried in one check, unless
--alone is given. A bug of a program that is still proved is built and run too, and what it prints is compared with the
crate's file stdout.

    tools/planted_bugs.py                     all bugs
    tools/planted_bugs.py source load         those of two crates
    tools/planted_bugs.py source/quota_of_one_less
    tools/planted_bugs.py --table             the table of docs/PLANTED.md, of what was found last
"""

import argparse
import contextlib
import json
import os
import re
import shutil
import subprocess
import sys
import tempfile
import time
from collections import namedtuple
from pathlib import Path

ROOT = Path(__file__).resolve().parent.parent
BUGS = Path(__file__).resolve().parent / "planted_bugs"
PARTS = ("src", "specs", "proofs", "stdin", "stdout", "args", "status", "data")

Bug = namedtuple("Bug", "crate name kind what lines")
Found = namedtuple("Found", "by said")

# What a check says of a `prove!` that is false.
FAILED_CONSTANT = "error[failed-constant-evaluation]"

# What refused a bug, in the order of the closing table.
AT_SOURCE = "by its contract"
AT_PROOF = "by the written proof of its contract"
BY_NAME = "only by a proof file that names what is gone"
BY_LIMIT = "only by a limit of the prover"
BY_OUTPUT = "only by the stored output"
NO_CODE = "does not compile"
UNTRIED = "not tried"
THROUGH = "LET THROUGH"
KINDS = (AT_SOURCE, AT_PROOF, BY_NAME, BY_LIMIT, BY_OUTPUT, NO_CODE, UNTRIED, THROUGH)


def read_bugs():
    """Returns all bugs, crate by crate in the order of crates.txt."""
    bugs = []
    for crate in crates():
        file = BUGS / f"{crate}.txt"
        if file.is_file():
            bugs += [read_bug(crate, it) for it in file.read_text("utf-8").strip("\n").split("\n\n")]
    return bugs


def read_bug(crate, text):
    fields, lines = {}, []
    for line in text.split("\n"):
        key, _, value = line.partition(":")
        if key in ("name", "kind", "what"):
            fields[key] = value.strip()
        else:
            lines.append(line)
    return Bug(crate, fields["name"], fields["kind"], fields["what"], lines)


def crates():
    lines = (ROOT / "crates.txt").read_text("utf-8").split("\n")
    return [it.split(":")[0].split()[0] for it in lines if it.strip() and not it.startswith("#")]


def copy_crates(scratch):
    """Copies the crates as they stand, and leaves what was proved of earlier copies."""
    for name in ("crates.txt", "HANDLES"):
        if (ROOT / name).is_file():
            shutil.copyfile(ROOT / name, scratch / name)
    (scratch / ".git").mkdir(exist_ok=True)
    for crate in crates():
        to = scratch / "crates" / crate
        to.mkdir(parents=True, exist_ok=True)
        for part in PARTS:
            copy_part(ROOT / "crates" / crate / part, to / part)


def copy_part(part, to):
    if to.is_dir():
        shutil.rmtree(to)
    elif to.exists():
        to.unlink()
    if part.is_dir():
        shutil.copytree(part, to)
    elif part.is_file():
        shutil.copyfile(part, to)


def rt(words, folder, jobs):
    """Runs a command of rt and returns its status and what it said."""
    env = {**os.environ, "RT_JOBS": str(jobs)}
    ran = subprocess.run(["rt", *words], cwd=folder, env=env, stdin=subprocess.DEVNULL, stdout=subprocess.PIPE, stderr=subprocess.STDOUT)
    return ran.returncode, ran.stdout.decode(errors="replace")


def try_crate(scratch, crate, bugs, jobs, alone):
    """Tries the bugs of a crate, and returns what was found by their names."""
    folder = scratch / "crates" / crate
    status, said = rt(["check", "--jobs", str(jobs)], folder, jobs)
    if status:
        sys.exit(f"{crate} is not proved as it stands:\n{said[-2000:]}")
    found = {bug.name: Found(UNTRIED, lacks(folder, bug)) for bug in bugs if lacks(folder, bug)}
    bugs = [bug for bug in bugs if bug.name not in found]
    left = [[it] for it in bugs] if alone else grouped(folder, bugs)
    while left:
        group = left.pop(0)
        with planted(folder, group):
            status, said = rt(["check", "--jobs", str(jobs)], folder, jobs)
        plain = all(place_of(folder, it).functions for it in group)
        if len(group) > 1 and (re.search(r"\berror\[", said) or status and not plain):
            # one that does not compile keeps the others from being tried, and one of no function is told from others only if all pass
            left = [[it] for it in group] + left
            continue
        for bug in group:
            found[bug.name] = judged(folder, bug, status, said, len(group) == 1)
            if found[bug.name].by in (UNTRIED, THROUGH) and len(group) > 1 and status:
                # what a group does not tell for sure, a check of its own does
                left.append([bug])
            else:
                show(bug, found[bug.name])
    for bug in bugs:
        if found[bug.name].by == THROUGH and (folder / "src/main.rt").is_file():
            found[bug.name] = by_output(folder, bug, jobs)
            show(bug, found[bug.name])
    return found


def show(bug, found):
    print(f"  {bug.name}: {found.by}{': ' if found.said else ''}{found.said[:150]}", flush=True)


Place = namedtuple("Place", "file first last functions")


def place_of(folder, bug):
    """Where a bug is planted: the file and the lines of the function, or of the constant with all functions that name it."""
    file, old, _ = next(pairs_of(bug))
    text = (folder / file).read_text("utf-8")
    lines = text.split("\n")
    at = text[: text.index(old) + len(old) - len(old.lstrip())].count("\n")
    spans = spans_of(lines)
    for name, first, last in spans:
        if first <= at <= last:
            return Place(file, first, last, {name})
    constant = re.search(r"(?:const|static) (\w+)", lines[at])
    users = {name for name, first, last in spans if constant and re.search(rf"\b{constant[1]}\b", "\n".join(lines[first : last + 1]))}
    return Place(file, at, at, users)


def spans_of(lines):
    """The functions of a file: the name of each, as the check says it, and its first and last line."""
    spans, owner = [], ""
    for at, line in enumerate(lines):
        if line.startswith("impl"):
            owner = owner_of(line)
        elif line == "}":
            owner = ""
        begun = re.match(r"( *)(?:pub(?:\([a-z]+\))? )?(?:const |final )?fn (\w+)", line)
        if begun:
            ends = (it for it in range(at, len(lines)) if lines[it] in (begun[1] + "}", begun[1] + "{}"))
            spans.append((f"{owner}{begun[2]}", at, next(ends, len(lines))))
    return spans


def owner_of(line):
    """The type of an impl, with its trait behind it, as the check names them: `SkipSource::` of `impl<S: Source> Source for Skip<S> {`."""
    words = line.removeprefix("impl")
    while re.search(r"<[^<>]*>", words):
        words = re.sub(r"<[^<>]*>", "", words)
    trait, _, kind = words.strip(" {").rpartition(" for ")
    last = lambda it: it.split("::")[-1].strip()
    return f"{last(kind)}{last(trait)}::"


def grouped(folder, bugs):
    """Puts bugs into groups that one check can tell apart, since no two of a group touch functions of one name. A function is proved against the
    contracts of those that it calls and not against their bodies, so the bugs of a group do not bear on one another."""
    groups = []
    for bug in bugs:
        functions = place_of(folder, bug).functions
        fits = next((it for it in groups if bool(functions) == bool(it[1]) and not functions & it[1]), None)
        if fits:
            fits[0].append(bug)
            fits[1].update(functions)
        else:
            groups.append(([bug], set(functions)))
    return [it for it, _ in groups]


@contextlib.contextmanager
def planted(folder, bugs):
    kept = {it: it.read_text("utf-8") for it in (folder / "src").rglob("*.rt")}
    try:
        for bug in bugs:
            plant(folder, bug)
        yield
    finally:
        for file, text in kept.items():
            file.write_text(text, "utf-8")


def judged(folder, bug, status, said, is_alone):
    """What a check says of a bug. In a group only what stands at the bug's own functions counts."""
    place = place_of(folder, bug)
    lines = [it for it in said.split("\n") if re.match(r"(note: )?(\./)?(src|proofs)/\S+:\d+:\d+: (?!note|warning)", it)]
    failed = [it for it in said.split("\n") if re.match(r"fn \S+: ", it) and not it.endswith(": proved")]
    if not is_alone:
        names = "|".join(map(re.escape, place.functions))
        failed = [it for it in failed if re.match(rf"fn (\S+::)?({names}): ", it)]
        lines = [it for it in lines if stands_at(it, folder, place)]
    constant = next((it for it in said.split("\n") if FAILED_CONSTANT in it), "")
    if constant:
        return Found(AT_SOURCE, constant)
    if "logic=" not in said:
        return Found(NO_CODE if re.search(r"\berror\b", said) else UNTRIED, next((it for it in said.split("\n") if "error" in it), said[-200:]))
    if status == 3:
        return Found(BY_LIMIT, (failed + lines + [""])[0])
    if status == 0 or not (failed or lines):
        return Found(THROUGH, "")
    beyond = next((it for it in failed if "does not cover" in it), "")
    if beyond:
        return Found(UNTRIED, beyond)
    if not is_alone and not lines and not any("did not prove" in it or "expected" in it for it in failed):
        return Found(UNTRIED, "it may only call what is not proved")
    at_source = [it for it in lines if re.match(r"(note: )?(\./)?src/", it)] or [it for it in failed if "did not prove" in it]
    other = [it for it in lines if not re.search(r"has no field|is not in scope|has no `|was not admitted", it)]
    by = AT_SOURCE if at_source else AT_PROOF if other or failed and not lines else BY_NAME
    return Found(by, " | ".join([*(at_source or other or lines)[:1], *failed[:1]]))


def stands_at(line, folder, place):
    """Whether a line of a check stands at a function of a place, or in a folder of its proof."""
    file, at = re.match(r"(?:note: )?(?:\./)?(\S+?):(\d+):", line).groups()
    if file.startswith("proofs/"):
        return any(f"/{it.replace('::', '/')}/" in file for it in place.functions)
    if not (folder / file).is_file():
        return False
    spans = spans_of((folder / file).read_text("utf-8").split("\n"))
    return any(name in place.functions and first <= int(at) - 1 <= last for name, first, last in spans)


def by_output(folder, bug, jobs):
    """Builds a program with the bug, runs it, and compares what it prints and its status with what is stored."""
    stdin = (folder / "stdin").read_bytes() if (folder / "stdin").is_file() else b""
    args = (folder / "args").read_text("utf-8").split("\n") if (folder / "args").is_file() else []
    args = [it for it in args if it]
    with planted(folder, [bug]), tempfile.TemporaryDirectory() as room:
        for it in (folder / "data").glob("*"):
            shutil.copy(it, room)
        made = folder / "out" / bug.crate
        made.unlink(missing_ok=True)
        _, said = rt(["run", "--jobs", str(jobs), "--", *args], folder, jobs)
        if not made.is_file():
            return Found(UNTRIED, said[-300:])
        ran = subprocess.run([made, *args], cwd=room, input=stdin, stdout=subprocess.PIPE, stderr=subprocess.PIPE, timeout=120)
    want = (folder / "stdout").read_bytes() if (folder / "stdout").is_file() else b""
    wanted = int((folder / "status").read_text()) if (folder / "status").is_file() else 0
    if ran.returncode != wanted:
        return Found(BY_OUTPUT, f"it ends with status {ran.returncode}")
    if ran.stdout == want:
        return Found(THROUGH, "and what it prints of the stored input is the same")
    at = next((i for i, (a, b) in enumerate(zip(ran.stdout, want)) if a != b), min(len(ran.stdout), len(want)))
    return Found(BY_OUTPUT, f"line {want[:at].count(10) + 1} of {want.count(10)} differs")


def pairs_of(bug):
    """The file, the old text and the new text of each change."""
    file = old = None
    for line in bug.lines:
        key, _, value = line.partition(":")
        value = value.removeprefix(" ")
        if key == "new":
            yield file, old, value
        file, old = (value if key == "file" else file), (value if key == "old" else old)


def changed(folder, bug):
    """The texts of the files that a bug changes, or what keeps it from being planted."""
    texts = {}
    for file, old, new in pairs_of(bug):
        text = texts.get(file) or (folder / file).read_text("utf-8") if (folder / file).is_file() else ""
        if text.count(old) != 1:
            return {}, f"the text {old!r} stands {text.count(old)} times in {file}, and not once"
        texts[file] = text.replace(old, new)
    return texts, ""


def lacks(folder, bug):
    return changed(folder, bug)[1]


def plant(folder, bug):
    for file, text in changed(folder, bug)[0].items():
        (folder / file).write_text(text, "utf-8")


def chosen(bugs, words):
    """The bugs that the words name: a crate, or a crate and a bug."""
    lacking = [it for it in words if not any(it in (bug.crate, f"{bug.crate}/{bug.name}") for bug in bugs)]
    if lacking:
        sys.exit(f"no crate with bugs and no bug is named {' '.join(lacking)}")
    return [bug for bug in bugs if not words or bug.crate in words or f"{bug.crate}/{bug.name}" in words]


def try_all(scratch, bugs, jobs, alone):
    copy_crates(scratch)
    results = read_results(scratch)
    done, began = 0, time.time()
    for crate in dict.fromkeys(bug.crate for bug in bugs):
        own = [bug for bug in bugs if bug.crate == crate]
        print(f"{crate}: {len(own)} bugs ({done} of {len(bugs)} done, {time.time() - began:.0f} s)", flush=True)
        for name, found in try_crate(scratch, crate, own, jobs, alone).items():
            results[f"{crate}/{name}"] = found
        done += len(own)
        (scratch / "found.json").write_text(json.dumps(results, indent=1, ensure_ascii=False), "utf-8")
    return results


def read_results(scratch):
    file = scratch / "found.json"
    return {name: Found(*it) for name, it in json.loads(file.read_text("utf-8")).items()} if file.is_file() else {}


def goal_of(said):
    """The goal that is not proved, by the name that the check gives it."""
    found = re.search(r"\(`([\w-]+)`\)|error: `([\w-]+)`|did not prove `([\w-]+)`", said)
    return next(filter(None, found.groups()), "") if found else ""


def fact_of(said):
    """Which fact is not proved, in words."""
    if FAILED_CONSTANT in said:
        return "the `prove!` behind it"
    goal = goal_of(said)
    clause = re.search(r"returns.*-clause-(\w+)", goal)
    called = re.fullmatch(r"(\w+?)(?:-.*)?-requires.*", goal)
    if clause:
        return f"what it ensures ({clause[1]})"
    if goal.startswith("returns"):
        return "what it ensures"
    if goal.startswith("invariant_of"):
        return "the invariant of what it makes"
    if goal.startswith("loop"):
        return "the invariant of its loop"
    if called:
        return f"what `{called[1]}` requires"
    told = re.search(r"it is not proved that (.*?)(?: \(|;|$)", said)
    return told[1] if told else ""


def function_of(bug):
    """The function that a bug changes, or the constant, as a reader knows it."""
    folder = ROOT / "crates" / bug.crate
    file, old, _ = next(pairs_of(bug))
    if lacks(folder, bug):
        return f"in `{file}`"
    text = (folder / file).read_text("utf-8")
    before = text[: text.index(old) + len(old)].split("\n")
    if place_of(folder, bug).first == place_of(folder, bug).last:
        named = re.search(r"(?:const|static) (\w+)", before[-1])
        return f"`{named[1]}`" if named else f"in `{file}`"
    name = re.findall(r"\bfn (\w+)", "\n".join(before))[-1]
    impl = next((it for it in reversed(before) if it.startswith("impl") or it == "}"), "}")
    trait, _, kind = re.sub(r"^impl(<.*?>)? ", "", impl).strip(" {").rpartition(" for ")
    bare = lambda it: re.sub(r"<.*|'\w+ ?", "", it).split("::")[-1]
    if impl == "}":
        return f"`{name}`"
    return f"`{bare(trait)}::{name}` of `{bare(kind)}`" if trait else f"`{bare(kind)}::{name}`"


HOW = {AT_SOURCE: "", AT_PROOF: "; the written proof no longer fits", BY_NAME: "; only by a proof file that names what is gone"}


def told_of(bug, found):
    """How a bug came out, in words."""
    if found.by in HOW:
        fact = fact_of(found.said)
        return f"{function_of(bug)}{': ' if fact else ''}{fact}{HOW[found.by]}"
    return f"{found.by}{': ' if found.said else ''}{found.said}"


def table(bugs, results):
    lines = ["| Crate | Bug | Slip | Not proved of the crate with it |", "|---|---|---|---|"]
    for bug in bugs:
        found = results.get(f"{bug.crate}/{bug.name}", Found(UNTRIED, ""))
        lines.append(f"| `{bug.crate}` | {bug.what} | {bug.kind} | {told_of(bug, found)} |")
    return "\n".join(lines)


def counted(bugs, results):
    found = [results[f"{bug.crate}/{bug.name}"].by for bug in bugs if f"{bug.crate}/{bug.name}" in results]
    return [f"{found.count(it):4} {it}" for it in KINDS if it in found] + [f"{len(found):4} of {len(bugs)} bugs"]


def main():
    words = argparse.ArgumentParser(description=__doc__, formatter_class=argparse.RawDescriptionHelpFormatter)
    words.add_argument("names", nargs="*", help="crates, or bugs as CRATE/NAME")
    words.add_argument("--scratch", type=Path, default=Path(tempfile.gettempdir()) / "planted_bugs")
    words.add_argument("--jobs", type=int, default=1, help="checks at a time")
    words.add_argument("--alone", action="store_true", help="a check for each bug")
    words.add_argument("--table", action="store_true", help="print the table of what was found last, and try nothing")
    given = words.parse_args()
    bugs = chosen(read_bugs(), given.names)
    given.scratch.mkdir(parents=True, exist_ok=True)
    if given.table:
        print(table(bugs, read_results(given.scratch)))
        return 0
    results = try_all(given.scratch, bugs, given.jobs, given.alone)
    print("\n".join(counted(bugs, results)))
    return 1 if any(results[f"{bug.crate}/{bug.name}"].by in (THROUGH, UNTRIED, NO_CODE) for bug in bugs) else 0


if __name__ == "__main__":
    sys.exit(main())
