"""What a reading of a list of kinds has to come to, by two ways that share nothing with the product.

A general parser, Earley's, says over the plain grammar whether the list is a sentence, which its left parse is, and at
which place no sentence goes on. A simulation of the canonical parser, over the tables of table_oracle.py, says which
rules are announced before a refusal, how many moves are made, and where a limit is met. `outcome` compares the two.
reading_cases.py uses it. A list holds numbers; places count from 1, and the end has the place behind the list.
"""
from table_oracle import END, START, grown, pair

MOST_STATES, MOST_MOVES, MOST_PRINTED = 256, 1_000_000, 1_000
LONG = 2_000  # the general parser takes the square of a list's length: of longer ones only the simulation tells
REASONS = {
    12: "the token or the end cannot stand here",
    13: "the stack would pass 256 states",
    14: "1,000,000 moves are made",
}


# The general parser

class Parser:
    """Earley's parser. A dotted rule is (rule, dot, from): what stands before the dot derives the tokens between."""

    def __init__(self, grammar):
        self.t, self.lefts = grammar.t, [left for left, _ in grammar.rules]
        self.rights = [right for _, right in grammar.rules]
        self.rules = grammar.numbers
        self.empty = grown(set(), lambda empty: {left for left, right in grammar.rules if empty.issuperset(right)})

    def behind(self, rule, dot):
        return self.rights[rule][dot] if dot < len(self.rights[rule]) else None

    def closed(self, items, sets):
        """With the rules of what stands behind a dot, and the dot moved over what is complete."""
        here, todo = set(), list(items)
        while todo:
            item = todo.pop()
            if item in here:
                continue
            here.add(item)
            rule, dot, start = item
            x = self.behind(rule, dot)
            if x is None and start < len(sets):  # what is complete without a token was moved over before
                todo += [(r, d + 1, s) for r, d, s in sets[start] if self.behind(r, d) == self.lefts[rule]]
            elif x in self.rules:
                todo += [(r, 0, len(sets)) for r in self.rules[x]]
                todo += [(rule, dot + 1, start)] * (x in self.empty)
        return here

    def sets(self, kinds):
        """The dotted rules before each token, as far as some sentence goes on."""
        found = [self.closed([(r, 0, 0) for r in self.rules[START]], [])]
        for kind in kinds:
            more = [(r, d + 1, s) for r, d, s in found[-1] if self.behind(r, d) == kind]
            if not (more and 1 <= kind <= self.t):
                break
            found.append(self.closed(more, found))
        return found

    def complete(self, a, start, items):
        return [r for r in self.rules[a] if (r, len(self.rights[r]), start) in items]

    def parse(self, kinds):
        """The left parse and None, or None and the first place at which no sentence goes on."""
        sets = self.sets(kinds)
        if len(sets) <= len(kinds):
            return None, len(sets)
        if not self.complete(START, 0, sets[-1]):
            return None, len(kinds) + 1
        parse, todo = [], [(START, 0, len(kinds))]
        while todo:
            a, start, end = todo.pop()
            rule, = self.complete(a, start, sets[end])  # two would be two left parses
            parse.append(rule)
            for dot in range(len(self.rights[rule]), 0, -1):  # the last symbol lies on the top then
                x = self.rights[rule][dot - 1]
                middle = end - 1 if x < START else self.middle(x, (rule, dot - 1, start), end, sets)
                todo += [(x, middle, end)] * (x >= START)
                end = middle
        return parse, None

    def middle(self, x, item, end, sets):
        """Where `x` begins that ends here, with the dotted rule before it."""
        place, = [at for at in range(item[2], end + 1) if item in sets[at] and self.complete(x, at, sets[end])]
        return place


# The canonical parser

class Canonical:
    """The canonical parser of a table: what all its readings look up."""

    def __init__(self, made):
        self.grammar, self.k, self.t = made.grammar, made.grammar.k, made.grammar.t
        self.start = made.successors[0][START]
        self.begun = [{word[:i] for word in words for i in range(1, self.k + 1)} for _, words in made.states]
        self.behind = [{self.grammar.rights[rule][dot] for rule, dot in kernel} for kernel, _ in made.states]
        self.choice = [{(a, u, v): rule for a, u, v, rule in choices} for choices in made.choices]
        self.successors, self.known = made.successors, {}

    def symbol(self, state):
        """The one symbol that stands behind all dots."""
        symbol, = self.behind[state]
        return symbol

    def pushed(self, state, rule):
        """The states that lead to after(state, rule), the last one on the top."""
        if (state, rule) not in self.known:
            states = [state]
            for x in reversed(self.grammar.rights[rule]):
                states.append(self.successors[states[-1]][x])
            self.known[state, rule] = states[1:]
        return self.known[state, rule]


class Simulation:
    """A reading of a list by a canonical parser; the list's last entry is the end or a fault.

    `answer` is the number that ends it, 0 where it finishes; `trace` has a pair for each move: "rule" and the rule, or
    "token" and where in the list it stands.
    """

    def __init__(self, canonical, kinds, faulty=False):
        self.canonical, self.kinds, self.faulty = canonical, kinds, faulty
        self.stack, self.window = [0, canonical.start], []  # the top stands last
        self.asked, self.trace, self.moves, self.answer = 0, [], 0, None
        while self.answer is None:
            self.step()
        self.rules = [value for what, value in self.trace if what == "rule"]
        self.tokens = min(self.asked, len(kinds))  # those that are let in

    def step(self):
        if self.moves == MOST_MOVES:
            self.answer = 14
            return
        self.answer = self.fill()
        if self.answer is None and self.stack == [0]:
            self.moves, self.answer = self.moves + 1, 0
        elif self.answer is None:
            self.act(self.canonical.symbol(self.stack[-1]))

    def fill(self):
        """Lets entries in until the window is full, or gives the number of what does not fit."""
        while len(self.window) < self.canonical.k and END not in self.window:
            at_end = self.asked == len(self.kinds)
            if at_end and self.faulty:
                return 15
            symbol = END if at_end else self.kinds[self.asked]
            known = at_end or 1 <= symbol <= self.canonical.t
            if not known or (*self.window, symbol) not in self.canonical.begun[self.stack[-1]]:
                return 12
            self.window.append(symbol)
            self.asked += 1
        return None

    def act(self, symbol):
        """Takes a token, or announces a rule of a nonterminal."""
        if symbol < START:
            self.trace.append(("token", self.asked - len(self.window)))
            assert self.window.pop(0) == symbol
            self.stack.pop()
        else:
            below = self.stack[-2]
            rule = self.canonical.choice[below][symbol, *pair(tuple(self.window))]
            pushed = self.canonical.pushed(below, rule)
            if len(self.stack) - 1 + len(pushed) > MOST_STATES:
                self.answer = 13
                return
            self.stack[-1:] = pushed
            self.trace.append(("rule", rule))
        self.moves += 1


# Both

def begins(long, short):
    return long[:len(short)] == short


def agree(parser, kinds, done, known):
    """Whether the general parser says the same, as far as no limit was met; `known` are sentences with their parses.

    What was announced begins the parse of each sentence that goes on from what was let in.
    """
    parse, place = parser.parse(kinds)
    on_the_way = all(begins(rules, done.rules) for sentence, rules in known
                     if done.asked <= len(sentence) and begins(sentence, kinds[:done.asked]))
    if done.answer == 0:
        return parse == done.rules and done.moves == len(parse) + len(kinds) + 1
    if done.answer == 12:
        return on_the_way and place == done.asked + 1
    return on_the_way and (place or len(kinds) + 2) > done.asked


def closing(answer, value, tokens, rules, moves, reason=None):
    """The closing line, of any place or values that are returned."""
    counts = "tokens=%d rules=%d moves=%d" % (tokens, rules, moves)
    return "finished " + counts if answer == 0 else "refused %d %s %s: %s" % (
        answer, value, counts, reason or REASONS[answer])


def line_of(answer, value, tokens, rules, moves):
    """The line for a stored list: the rules announced, unless they are too many, and the closing line."""
    shown = "".join("%d " % rule for rule in rules) if len(rules) <= MOST_PRINTED else "... "
    return shown + closing(answer, value, tokens, len(rules), moves)


def outcome(canonical, parser, kinds, known=()):
    done = Simulation(canonical, kinds)
    assert len(kinds) > LONG or agree(parser, kinds, done, known), (canonical.grammar.rules, kinds)
    value = done.asked + 1 if done.answer == 12 else 0
    return line_of(done.answer, value, done.tokens, done.rules, done.moves)
