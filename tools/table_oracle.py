"""LL(k) table files: the table of a grammar, and what a check has to say of a text.

It follows the definitions by plain sets and shares nothing with the product; table_cases.py uses it.
Texts are `bytes`; a rule is a pair (left, right) with a tuple of symbols on the right; a word
is a tuple of tokens; a state is a pair of its kernel places (rule, dot) and its words.
"""
END, START = 31, 32
TEXT_LIMIT, DIGIT_LIMIT, FRAME_LIMIT, STATE_LIMIT = 1048576, 8192, 861, 200
DIGITS = b"0123456789ABCDEF"
ENTRY_SIZE = {3: 2, 4: 2, 5: 2, 6: 4}  # by the tag of a frame
REASONS = {
    1: "the text has over 1048576 bytes",
    2: "the line is no frame",
    3: "the store or the list of starts is too short",
    4: "the frame is not as defined",
    5: "the nonterminal derives no token string",
    6: "the nonterminal is in no string from the start",
    7: "the state or its successors are not as defined",
    8: "the state is equal to a lower one",
    9: "the state is no successor of a lower one",
    10: "two rules fit one word",
    11: "the choices are not as defined",
}


# Grammars

def join(k, left, right):
    """Each string of `left` joined to each of `right`, cut to k symbols."""
    if not right:
        return set()
    full = {u for u in left if len(u) == k}  # nothing of `right` is left after the cut
    return full | {(u + v)[:k] for u in left if len(u) < k for v in right}


def grown(found, more):
    """The least set that holds `found` and what `more` gives for it."""
    while not more(found) <= found:
        found = found | more(found)
    return found


class Grammar:
    def __init__(self, k, rules, t, n):
        self.k, self.t, self.n, self.p = k, t, n, len(rules)
        self.rules = list(rules)
        self.rights = [right for _, right in rules] + [(START, END)]
        self.nonterminals = range(START, START + n)
        self.numbers = {a: [r for r, (left, _) in enumerate(self.rules) if left == a] for a in self.nonterminals}
        self.closures, self.joined = {}, {}  # what is known already
        self.first = {a: {(a,)} for a in [*range(1, t + 1), END]}
        self.first.update({a: set() for a in self.nonterminals})
        changed = True
        while changed:
            changed = False
            for left, right in self.rules:
                found = {()}
                for x in right:
                    found = join(k, found, self.first[x])
                if not found <= self.first[left]:
                    self.first[left] |= found
                    changed = True

    def productive(self):
        """The nonterminals that derive some token string."""
        return grown(set(), lambda done: {left for left, right in self.rules
                                          if all(x < START or x in done for x in right)})

    def reached(self):
        """The nonterminals in some string derived from the start."""
        return grown({START}, lambda done: {x for left, right in self.rules if left in done
                                            for x in right if x >= START})

    def before(self, place):
        """The symbol just before the dot, or None."""
        rule, dot = place
        return self.rights[rule][dot - 1] if dot > 0 else None

    def ends(self, places):
        """The rules of the nonterminals just before a dot, with the dot at their end."""
        wanted = {self.before(place) for place in places}
        return {(r, len(right)) for r, (left, right) in enumerate(self.rules) if left in wanted}

    def closure(self, kernel):
        if kernel not in self.closures:
            self.closures[kernel] = grown(kernel, self.ends)
        return self.closures[kernel]

    def symbols(self, state):
        """The symbols that have a next."""
        return {self.before(place) for place in self.closure(state[0])} - {None}

    def next(self, state, x):
        kernel, words = state
        lower = frozenset((r, d - 1) for r, d in self.closure(kernel)
                          if self.before((r, d)) == x)
        if (x, words) not in self.joined:
            self.joined[x, words] = frozenset(join(self.k, self.first[x], words))
        return (lower, self.joined[x, words])

    def after(self, state, rule):
        for x in reversed(self.rights[rule]):
            state = self.next(state, x)
        return state

    def start_state(self):
        return (frozenset({(self.p, 1)}), frozenset({(END,)}))

    def fits(self, state):
        """For each nonterminal with a next and each word, the rules that fit, rising."""
        fitting = {}
        for a in self.symbols(state):
            for r, (left, _) in enumerate(self.rules):
                if left == a:
                    for word in self.after(state, r)[1]:
                        fitting.setdefault((a, word), []).append(r)
        return fitting

    def choices(self, state, most=1):
        """The choices of a state; where several rules fit, the lowest, or at most `most`."""
        return {(a, *pair(word), r)
                for (a, word), rules in self.fits(state).items() for r in rules[:most]}


def pair(word):
    return (word + (0,))[:2]


# Tables

class Table:
    """States with their successors and choices, as a file names them."""

    def __init__(self, grammar, states, successors, choices):
        self.grammar, self.states = grammar, states
        self.successors, self.choices = successors, choices

    def frames(self):
        g = self.grammar
        out = [[1, g.k, g.t, g.n, g.p, len(self.states)]]
        out += [[2, left, *right] for left, right in g.rules]
        for (kernel, words), to, choices in zip(self.states, self.successors, self.choices):
            for tag, those in zip(ENTRY_SIZE, (kernel, map(pair, words), to.items(), choices)):
                out.append(frame_of(tag, sorted(those)))
        return out

    def text(self):
        return text_of(self.frames())

    def reordered(self, order):
        """State i of the outcome is state order[i] of this table, as often as it occurs."""
        place = {}
        for new, old in enumerate(order):
            place.setdefault(old, new)
        successors = [{x: place[to] for x, to in self.successors[old].items() if to in place}
                      for old in order]
        return Table(self.grammar, [self.states[old] for old in order], successors,
                     [self.choices[old] for old in order])

    def allowed_order(self, rng):
        """A numbering in which each state after 0 is a successor of a lower one."""
        order = [0]
        while len(order) < len(self.states):
            named = {to for q in order for to in self.successors[q].values()} - {*order}
            order.append(rng.choice(sorted(named)))
        return order


def table(k, rules, t, n, limit=STATE_LIMIT, most=1):
    """The canonical table: states breadth first by symbol; None with more than `limit`."""
    g = Grammar(k, rules, t, n)
    states, numbers, successors = [g.start_state()], {g.start_state(): 0}, []
    for state in states:  # grows while it is read
        successors.append({})
        for x in sorted(g.symbols(state)):
            to = g.next(state, x)
            if to not in numbers:
                numbers[to] = len(states)
                states.append(to)
            successors[-1][x] = numbers[to]
        if len(states) > limit:
            return None
    return Table(g, states, successors, [g.choices(state, most) for state in states])


def build(k, rules, t, n, order=None):
    """The table file of a grammar, or None where no such file can be.

    `order` lists the canonical numbers of the states in the order wanted.
    """
    made = table(k, rules, t, n)
    frames = (made.reordered(order) if order else made).frames() if made else []
    fits = frames and max(map(len, frames)) <= DIGIT_LIMIT // 2
    return text_of(frames) if fits else None


def frame_of(tag, entries):
    return [tag] + [b for entry in entries for b in entry]


def text_of(frames):
    return "".join("".join("%02X" % b for b in frame) + "\n" for frame in frames).encode()


def frames_of(text):
    return [list(bytes.fromhex(line.decode())) for line in text.split()]


# The oracle

class Refused(Exception):
    pass


def need(fact, number, value):
    if not fact:
        raise Refused(number, value)


def load(text):
    need(len(text) <= TEXT_LIMIT, 1, 0)
    *lines, rest = text.split(b"\n")
    for number, line in enumerate(lines, 1):
        need(2 <= len(line) <= DIGIT_LIMIT and len(line) % 2 == 0
             and all(c in DIGITS for c in line), 2, number)
    need(rest == b"", 2, len(lines) + 1)
    need(len(lines) <= FRAME_LIMIT, 3, 0)
    return [bytes.fromhex(line.decode()) for line in lines]


def words_of(k, t):
    """All words, as pairs."""
    tokens = range(1, t + 1)
    full = {(a, b) for a in tokens for b in ([0] if k == 1 else [*tokens, END])}
    return full | {(END, 0)}


def entries_of(frame):
    """The entries behind the tag, or None where they are not whole or not strictly rising."""
    size = ENTRY_SIZE[frame[0]]
    entries = [tuple(frame[i:i + size]) for i in range(1, len(frame), size)]
    whole = all(len(entry) == size for entry in entries)
    rising = all(a < b for a, b in zip(entries, entries[1:]))
    return entries if whole and rising else None


def read(frames):
    """The grammar and, for each state, the entries of its four frames."""
    need(frames, 4, 0)
    head = frames[0]
    need(len(head) == 6 and head[0] == 1, 4, 0)
    k, t, n, p, s = head[1:]
    need(k in (1, 2) and 1 <= t <= 20 and 1 <= n <= 24 and 1 <= p <= 60
         and 1 <= s <= STATE_LIMIT, 4, 0)

    nonterminals, words = range(START, START + n), words_of(k, t)
    symbols = {*range(1, t + 1), *nonterminals}
    rules = []
    for number in range(1, 1 + p):
        need(number < len(frames), 4, number)
        frame = frames[number]
        need(2 <= len(frame) <= 8 and frame[0] == 2 and frame[1] in nonterminals
             and all(x in symbols for x in frame[2:]), 4, number)
        rules.append((frame[1], tuple(frame[2:])))
    lengths = [len(right) for _, right in rules] + [2]
    right_entry = {
        3: lambda rule, dot: rule <= p and dot < lengths[rule],
        4: lambda a, b: (a, b) in words,
        5: lambda x, to: x in symbols and to < s,
        6: lambda x, a, b, rule: x in nonterminals and (a, b) in words and rule < p,
    }
    states = []
    for number in range(1 + p, 1 + p + 4 * s):
        need(number < len(frames), 4, number)
        frame, tag = frames[number], 3 + (number - 1 - p) % 4
        need(frame[0] == tag, 4, number)
        entries = entries_of(frame)
        need(entries is not None and (entries or tag >= 5)
             and all(right_entry[tag](*entry) for entry in entries), 4, number)
        states = states + [[]] if tag == 3 else states
        states[-1].append(entries)
    need(len(frames) == 1 + p + 4 * s, 4, 1 + p + 4 * s)
    return Grammar(k, rules, t, n), states


def check(g, given):
    for a in g.nonterminals:
        need(a in g.productive(), 5, a)
    for a in g.nonterminals:
        need(a in g.reached(), 6, a)
    states = [(frozenset(kernel), frozenset((a, b) if b else (a,) for a, b in words))
              for kernel, words, _, _ in given]
    for q, state in enumerate(states):
        need(q > 0 or state == g.start_state(), 7, q)
        successors = given[q][2]
        need([x for x, _ in successors] == sorted(g.symbols(state) - {END}), 7, q)
        need(all(states[to] == g.next(state, x) for x, to in successors), 7, q)
    for q, state in enumerate(states):
        need(state not in states[:q], 8, q)
    for q in range(1, len(states)):
        need(any(to == q for low in given[:q] for _, to in low[2]), 9, q)
    for q, state in enumerate(states):
        need(all(len(rules) == 1 for rules in g.fits(state).values()), 10, q)
    for q, state in enumerate(states):
        need(set(given[q][3]) == g.choices(state), 11, q)


def outcome(text):
    """The line a checker prints for a table file."""
    try:
        frames = load(text)
        g, given = read(frames)
        check(g, given)
    except Refused as refusal:
        number, value = refusal.args
        return "refused %d %d: %s" % (number, value, REASONS[number])
    return "accepted k=%d t=%d n=%d p=%d s=%d frames=%d bytes=%d" % (
        g.k, g.t, g.n, g.p, len(given), len(frames), sum(map(len, frames)))
