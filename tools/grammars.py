"""The grammars of the cases and trials: named ones, large ones, and random ones of many shapes.

A grammar is k, rules, t and n, as table_oracle.table takes them.
"""
from table_oracle import START, Grammar

MOST_TOKENS, MOST_NONTERMINALS, MOST_RULES, MOST_SYMBOLS = 20, 24, 60, 6


# Named grammars, and large ones

def rules_of(text):
    """Rules written in hex, left symbol first, with a blank between rules."""
    return [(rule[0], tuple(rule[1:])) for rule in map(bytes.fromhex, text.split())]


def size_of(rules):
    """The least t and n that the rules need."""
    used = [x for left, right in rules for x in (left, *right)]
    return max([1] + [x for x in used if x < START]), max(used) - START + 1


NAMED = {  # name: k, t, rules
    "t": (1, 2, "200221 210121 21"),
    "early_refusal": (1, 2, "20012101 20022102 21"),
    "heating1": (1, 14, "202120 20 210924042207 210A24042507 210B2405282907 222423 23062423 23 "
                        "2402 2403 252726 26062726 26 27010401 2801 280E 290C010D01 29"),
    "heating2": (2, 14, "202120 20 210902042207 210205262707 2102042407 220223 23060223 23 "
                        "2401040125 250601040125 25 2601 260E 26010801 270C010D01 27"),
    "lines": (1, 15, "202120 20 210F 210B0205010F 2109020F"),
    "nested": (1, 3, "20012002 2003"),
    "not_strong_k1": (1, 2, "2001210101 2002210201 2102 21"),
    "not_strong_k2": (2, 2, "2001210101 2002210201 2102 21"),
    "loop": (1, 2, "20012021 2002 21"),  # a state may be its own successor for any word
    "left_recursive_k1": (1, 1, "202001 2001"),
    "left_recursive_k2": (2, 1, "202001 2001"),
}
SMALLEST = (1, [(START, ())], 1, 1)
ANY_TOKEN = [(33, (a,)) for a in range(1, 21)]
ALL_WORDS = [(START, (33, START)), (START, ())] + ANY_TOKEN  # a state has all 421 words for k = 2


def named(name):
    k, t, text = NAMED[name]
    rules = rules_of(text)
    return k, rules, t, size_of(rules)[1]


def fence(count, p, filler=19):
    """A grammar of p rules, LL for k = 1 and 2, whose table has `count` states.

    Each right side i .. i lies between its own tokens, so each dot in it is a state of its
    own; behind the token 20 the same holds for 33, 34 and 35. A filler that is a nonterminal
    needs rules of its own and adds states.
    """
    rules = [(START, (20, 33, 34, 35, 20))]
    lengths, more = divmod(count - 7, p - 1)  # but for states 0 and 1 and the rule above
    for j in range(p - 1):
        i, length = 1 + j // 4, lengths + (j < more)
        rules.append((START + j % 4, (i,) + (filler,) * (length - 2) + (i,) * (length > 1)))
    return rules


def choice_count(m, a, b):
    """For k = 2 a grammar whose state 0 has b(ma + 1) choices.

    A chain of m nonterminals ends in D E, where D is one of a tokens and E one of b.
    """
    d, e = START + m, START + m + 1
    rules = [(START + i, (START + i + 1,)) for i in range(m - 1)] + [(d - 1, (d, e))]
    return rules + [(d, (i,)) for i in range(1, a + 1)] + [(e, (i,)) for i in range(1, b + 1)]


def is_sound(rules, t, n):
    g = Grammar(1, rules, t, n)
    return g.productive() == g.reached() == set(g.nonterminals)


# Random grammars, LL(k) and not, sound and not

def cleaned(rules, t):
    """The rules without nonterminals that derive nothing or are not reached; None without the start symbol."""
    n = max(x for left, right in rules for x in (left, *right)) - START + 1
    done = Grammar(1, rules, t, n).productive()
    rules = [(left, right) for left, right in rules if all(x < START or x in done for x in (left, *right))]
    if START not in done:
        return None
    reached = sorted(Grammar(1, rules, t, n).reached())
    number = {old: START + new for new, old in enumerate(reached)} | {a: a for a in range(1, t + 1)}
    rules = [(number[left], tuple(number[x] for x in right)) for left, right in rules if left in number]
    return rules, t, len(reached)


def symbols(rng, t, n, count, chance):
    return tuple(rng.randint(1, t) if rng.random() < chance else START + rng.randrange(n) for _ in range(count))


def spread(rng, least, most):
    """A number in between, small ones more often."""
    return min(rng.randint(least, most), rng.randint(least, most), rng.randint(least, most))


def by_front(rng, k):
    """The rules of a nonterminal begin with words of their own, of at most k tokens; one may be empty."""
    t, n = spread(rng, 1, MOST_TOKENS), spread(rng, 1, MOST_NONTERMINALS)
    chance = rng.choice((0.3, 0.5, 0.7))
    rules = []
    for a in range(START, START + n):
        fronts = {tuple(rng.randint(1, t) for _ in range(rng.randint(1, k))) for _ in range(spread(rng, 1, 5))}
        fronts = [front for front in sorted(fronts) if len(front) == k or not any(
            other[:1] == front and other != front for other in fronts)]
        rules += [(a, front + symbols(rng, t, n, rng.randint(0, MOST_SYMBOLS - k), chance)) for front in fronts]
        rules += [(a, ())] * (rng.random() < 0.3)
    return rules, t


def in_turn(rng, k):
    """Nonterminals that may be empty, one behind the other, each with its own tokens."""
    t, n = rng.randint(2, 8), rng.randint(2, 8)
    rules = [(START, tuple(START + rng.randrange(1, n) for _ in range(rng.randint(1, MOST_SYMBOLS))))]
    for a in range(START + 1, START + n):
        rules += [(a, (1 + (a + i) % t,) * rng.randint(1, k) + symbols(rng, t, n, rng.choice((0, 0, 1, 2)), 0.4))
                  for i in range(rng.randint(1, 2))]
        rules += [(a, ())] * (rng.random() < 0.6)
    return rules, t


def by_context(rng, k):
    """A nonterminal whose rules go apart by what stands behind it, which is not the same everywhere."""
    t, n = rng.randint(2, 6), rng.randint(2, 5)
    rules = [(START, (i, rng.randrange(START + 1, START + n), *symbols(rng, t, n, rng.randint(0, 3), 0.9)))
             for i in range(1, rng.randint(2, t) + 1)]
    for a in range(START + 1, START + n):
        rules += [(a, symbols(rng, t, n, rng.choice((0, 0, 1, 1, 2)), 0.8)) for _ in range(rng.randint(1, 3))]
    return rules, t


def altered(rng, k):
    """A named grammar with a few changes."""
    _, rules, t, n = named(rng.choice([*NAMED]))
    rules = list(rules)
    for _ in range(rng.randint(1, 3)):
        at = rng.randrange(len(rules))
        left, right = rules[at]
        cut = rng.randrange(len(right) + 1)
        more = symbols(rng, t, n, rng.randint(0, 1), 0.6)
        other = (right[:cut] + more + right[cut + rng.randint(0, 1):])[:MOST_SYMBOLS]
        rules[at:at + rng.randint(0, 1)] = [(rng.choice((left, left, START + rng.randrange(n))), other)]
    return rules, t


def any_rules(rng, k):
    t, n = spread(rng, 1, MOST_TOKENS), spread(rng, 1, 8)
    chance = rng.choice((0.4, 0.6, 0.8))
    return [(START + rng.randrange(n), symbols(rng, t, n, spread(rng, 0, MOST_SYMBOLS), chance))
            for _ in range(rng.randint(1, min(MOST_RULES, 3 * n)))], t


def random_rules(rng):
    """A small grammar; many right sides begin with a token, so that many are LL."""
    t, n = rng.randint(1, 4), rng.randint(1, 4)
    tokens, nonterminals = range(1, t + 1), range(START, START + n)
    rules = []
    for a in [a for a in nonterminals for _ in range(rng.choice((1, 1, 2, 2, 2, 3)))]:
        chances = (0.8, 0.5, 0.5, 0.5)[:rng.choice((0, 1, 1, 2, 2, 3, 3, 4))]
        rules.append((a, tuple(rng.choice(tokens if rng.random() < chance else nonterminals)
                               for chance in chances)))
    rng.shuffle(rules)
    return rules, t, n


def small(rng, k):
    rules, t, _ = random_rules(rng)
    return rules, t


SHAPES = [by_front] * 3 + [in_turn, by_context, by_context, altered, any_rules, small, small]


def spoiled(rng, rules, t, n):
    """With a nonterminal that is not sound, a rule that stands twice, or one that begins with its own left side."""
    a = START + rng.randrange(n)
    what = rng.randrange(4)
    if what == 0:
        rules = rules + [rng.choice(rules)]
    elif what == 1:
        rules = rules + [(a, (a, rng.randint(1, t)))]
    elif what == 2:  # as often as not it is not reached, or derives nothing
        rules = [(left, tuple(START + n if rng.random() < 0.1 else x for x in right)) for left, right in rules]
        rules, n = rules + [(START + n, (START + n,) * rng.randint(0, 1))], n + 1
    else:
        rules = rules[:-1] or rules
    return rules, t, n


def grammar(rng):
    k = rng.choice((1, 2))
    while True:
        rules, t = rng.choice(SHAPES)(rng, k)
        rng.shuffle(rules)
        made = cleaned(rules, t) if rules else None
        if made and rng.random() < 0.12:
            made = spoiled(rng, *made)
        if made and 1 <= len(made[0]) <= MOST_RULES and made[2] <= MOST_NONTERMINALS:
            return (k, *made)
