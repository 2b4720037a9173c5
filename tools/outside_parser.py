"""What a general parser from elsewhere says of lists of tokens: Marpa, an Earley parser in C, by general_parser.pl.

It is given the rules of a grammar as they are, with no table, no lookahead and no k, and is asked of each list:

- whether it is a sentence, and whether it has more than one parse;
- the left parse of a sentence;
- else the first place at which it is impossible: no sentence begins with the tokens up to there.

It is not asked what a reading has announced by then, how many moves it has made, or whether a limit is met: that is no
question about a grammar's sentences. Nor is it asked whether a grammar is LL(k). It refuses grammars in which a rule
stands twice or a nonterminal derives itself; none of these is LL(k). It does not say by which rules a nonterminal
derives nothing. `rules_for_nothing` fills them in: in a sound LL(k) grammar a nonterminal has one such rule, or none.

It needs the Debian package libmarpa-r2-perl, and runs as one process for many grammars.
"""
import functools
import pathlib
import subprocess
from typing import NamedTuple, Optional

from table_oracle import grown

PROGRAM = pathlib.Path(__file__).with_name("general_parser.pl")


class Answer(NamedTuple):
    parse: Optional[list] = None  # of a sentence
    place: Optional[int] = None  # of any other list
    only: bool = True  # whether there is no other parse
    refused: Optional[str] = None  # where the grammar is not taken


def rules_for_nothing(rules):
    """What tells of a nonterminal that derives nothing the rules that do so, from the left."""
    empty = grown(set(), lambda done: {left for left, right in rules if done.issuperset(right)})
    chosen = {left: number for number, (left, right) in enumerate(rules) if empty.issuperset(right)}

    @functools.cache
    def told(a):
        return [chosen[a], *(rule for x in rules[chosen[a]][1] for rule in told(x))]

    return told


class OutsideParser:
    def __init__(self):
        self.process = subprocess.Popen(["perl", PROGRAM], stdin=subprocess.PIPE, stdout=subprocess.PIPE, text=True)

    def ask(self, grammar, lists):
        """An answer for each list; the parser has read the whole question before it answers."""
        out = ["grammar %d %d" % (grammar.t, grammar.n)]
        out += [" ".join(map(str, ("rule", left, *right))) for left, right in grammar.rules]
        out += [" ".join(map(str, ("list", *kinds))) for kinds in lists]
        self.process.stdin.write("\n".join(out) + "\nend\n")
        self.process.stdin.flush()
        lines = [self.process.stdout.readline().split() for _ in lists]
        told = rules_for_nothing(grammar.rules)
        return [answer_of(line, told) for line in lines]

    def close(self):
        self.process.stdin.close()
        self.process.wait()


def answer_of(line, told):
    word, *values = line
    if word == "refused":
        return Answer(refused=values[0])
    first, *rest = map(int, values)
    if word == "place":
        return Answer(place=first)
    parse = [rule for value in rest for rule in (told(-value) if value < 0 else [value])]
    return Answer(parse=parse, only=first == 1)
