#!/usr/bin/env python3
"""Makes the competitors' grammars of a table file: `competitor_grammar.py TABLE FOLDER`.

Of the rules in the file it writes `parser.y`, a grammar for bison whose actions write the number of each rule, and
`loop_grammar.h`, the tables of a loop for one symbol of lookahead: the choice for each nonterminal and token, and the
right side of each rule, reversed.
"""
import pathlib
import sys

END, START = 0, 32
PARSER_HEAD = """%{
#include "bison_parser.h"

unsigned char *rule_list;
size_t rule_room;
uint32_t rule_count;

#define YYMAXDEPTH 10000000
#define yylex next_token

static inline void rule(unsigned char number) {
    if (rule_count < rule_room) {
        rule_list[rule_count++] = number;
    }
}
%}

%define parse.error simple
"""


def rules_of(text):
    """The number of tokens, and the left and the right side of each rule."""
    frames = [bytes.fromhex(line) for line in text.split()]
    _, _, t, _, p, _ = frames[0]
    return t, [(frame[1], tuple(frame[2:])) for frame in frames[1:1 + p]]


def parser(t, rules):
    lines = [PARSER_HEAD]
    lines += [f"%token T{a} {a}" for a in range(1, t + 1)]
    lines += [f"%start N{START}", "", "%%", ""]
    for a in sorted({left for left, _ in rules}):
        sides = [" ".join(f"{'T' if x < START else 'N'}{x}" for x in right) or "%empty"
                 for left, right in rules if left == a]
        numbers = [r for r, (left, _) in enumerate(rules) if left == a]
        lines += [f"N{a}: " + "\n    | ".join(f"{side} {{ rule({r}); }}" for side, r in zip(sides, numbers)) + "\n    ;"]
    return "\n".join(lines) + "\n"


def grown(step, sets):
    """The least sets that a step does not make larger."""
    while True:
        before = {a: set(those) for a, those in sets.items()}
        step(sets)
        if sets == before:
            return sets


def first_of(string, first):
    """The tokens that what is derived from a string begins with; None where it may be empty."""
    found = set()
    for x in string:
        here = first[x] if x >= START else {x}
        found |= here - {None}
        if None not in here:
            return found
    return found | {None}


def choices(rules):
    """The rule for each nonterminal and token, END for the end. Refuses a grammar that is not LL(1)."""
    nonterminals = {left for left, _ in rules}

    def first_step(first):
        for left, right in rules:
            first[left] |= first_of(right, first)

    first = grown(first_step, {a: set() for a in nonterminals})

    def follow_step(follow):
        for left, right in rules:
            for i, x in enumerate(right):
                if x >= START:
                    behind = first_of(right[i + 1:], first)
                    follow[x] |= behind - {None} | (follow[left] if None in behind else set())

    follow = grown(follow_step, {a: {END} if a == START else set() for a in nonterminals})
    found = {}
    for r, (left, right) in enumerate(rules):
        begin = first_of(right, first)
        for token in begin - {None} | (follow[left] if None in begin else set()):
            if found.setdefault((left, token), r) != r:
                sys.exit(f"not LL(1): rules {found[left, token]} and {r} for token {token}")
    return found


def rows(lines):
    return "{\n" + "".join(f"    {line},\n" for line in lines) + "}"


def braced(numbers):
    return "{" + ", ".join(map(str, numbers)) + "}"


def loop_tables(t, rules):
    found, no_rule = choices(rules), 255
    nonterminals = range(START, max(left for left, _ in rules) + 1)
    # the column behind the last token is a fault's
    choice = [braced(found.get((a, token), no_rule) for token in range(18)) for a in nonterminals]
    widest = max(len(right) for _, right in rules)
    return f"""enum {{ FIRST_NONTERMINAL = {START}, NO_RULE = {no_rule} }};

static const unsigned char choice[{len(nonterminals)}][18] = {rows(choice)};

static const unsigned char right_length[{len(rules)}] = {braced(len(right) for _, right in rules)};

static const unsigned char right_reversed[{len(rules)}][{max(widest, 1)}] = {rows(
        braced(reversed(right)) if right else "{0}" for _, right in rules)};
"""


def main():
    text, folder = pathlib.Path(sys.argv[1]).read_text(), pathlib.Path(sys.argv[2])
    t, rules = rules_of(text)
    (folder / "parser.y").write_text(parser(t, rules))
    (folder / "loop_grammar.h").write_text(loop_tables(t, rules))


if __name__ == "__main__":
    main()
