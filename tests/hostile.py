#!/usr/bin/env python3
"""Writes tests/hostile.txt: tables that make a careless engine run for ever, one request of the program `calls` a line.
tests/hostile.out has the results, by an independent engine. Words, trailer and steps are made here from document 01."""
from lib.kept import keep
from lib.questions import Clause, extension, file_of, tower

FULL = 4294967295
RESTART = 0x80000000
P, Q, R = 1, 2, 3  # predicates
F, G, S, PAIR, CONS, NIL, ZERO, A, B = range(1, 10)  # functions
REQUESTS = []


def hexes(words):
    return " ".join(f"{word:X}" for word in words) or "-"


def search(title, clauses, bound=32, budget=FULL, answer=4096, verb="search"):
    proof = 231 if verb.startswith("restart") else 199
    REQUESTS.append(f"# {title}\n{verb} {bound} {budget} 16384 {proof} {answer} / {hexes(file_of(clauses))}")


def check(title, clauses, steps, bound=32, answer=4096, verb="check"):
    REQUESTS.append(f"# {title}: checked\n{verb} {bound} 16384 {answer} / {hexes(steps)} / {hexes(file_of(clauses))}")


def both(title, clauses, steps, **limits):
    search(title, clauses, **limits)
    check(title, clauses, steps, **limits)


def row(terms):
    term = (NIL,)
    for part in reversed(terms):
        term = (CONS, part, term)
    return term


def twice(name):
    return (F, name, name)


def chain(letter, count):
    return [f"{letter}{i}" for i in range(count + 1)]


def doubled(names):
    return row([twice(name) for name in names[:-1]])


# Within a clause: x1 = f(x0,x0), .. of one clause's sixteen variables.
def within():
    xs = chain("X", 15)
    fact = Clause(("+", P, row(xs[1:]), doubled(xs)))
    ask = Clause(("~", P, "T", "T"))
    both("16 variables of a clause double 15 times; the answer is too long", [fact, ask], [extension(0)])
    back = Clause(("+", P, doubled(xs), row(xs[1:])))
    both("the same, the sides exchanged", [back, ask], [extension(0)])
    circle = Clause(("+", P, (CONS, xs[0], row(xs[1:])), (CONS, xs[15], doubled(xs))))
    both("the same, a circle through all 16", [circle, ask], [extension(0)])
    late = Clause(("+", P, row([*xs[1:], xs[0]]), row([*[twice(x) for x in xs[:-1]], twice(xs[15])])))
    both("the same, the circle closed last", [late, ask], [extension(0)])
    short = Clause(("+", P, row(xs[1:7]), doubled(xs[:7])))
    for answer in (507, 506):
        both(f"an answer of 507 words, in {answer}", [short, ask], [extension(0)], answer=answer)


# Two chains in one clause, compared once they are made.
def two_within():
    xs, ys = chain("X", 6), chain("Y", 6)
    equations = (row([*xs[1:], *ys[1:]]), row([twice(n) for n in [*xs[:-1], *ys[:-1]]]))
    for title, bottoms in (("success", ()), ("a clash", ((A,), (B,))), ("a circle", ("U", twice("U")))):
        fact = Clause(("+", P, *equations, (PAIR, xs[6], ys[6]), (PAIR, xs[0], ys[0])))
        low = (PAIR, *bottoms) if bottoms else "W"
        ask = Clause(("~", P, "T", "T", "V", low), ("~", Q, "V"))
        both(f"two chains of a clause, compared: {title}", [fact, Clause(("+", Q, (PAIR, "Z", "Z"))), ask], [extension(0), extension(1)], answer=20000)


# Across copies: p(s(N), X, T, T) or not p(N, Y, row, row'): each copy's equations are met when the next is entered.
def levels(step, base, question, count):
    return [step, base, question], [*[extension(0)] * count, extension(1)]


def down(title, count, ask, end):
    xs = chain("X", 13)
    step = Clause(("+", P, (S, "N"), xs[0], "T", "T"), ("~", P, "N", xs[13], row(xs[1:]), doubled(xs)))
    clauses, steps = levels(step, end, Clause(("~", P, tower(S, count, (ZERO,)), ask, (NIL,), (NIL,))), count)
    both(f"{13 * count} doublings through {count} copies, downwards: {title}", clauses, steps)


def up(title, count, ask, bottom):
    xs = chain("X", 13)
    step = Clause(("+", P, (S, "N"), xs[13], "T", "T"), ("~", P, "N", xs[0], row(xs[1:]), doubled(xs)))
    end = Clause(("+", P, (ZERO,), bottom, "T", "T"))
    clauses, steps = levels(step, end, Clause(("~", P, tower(S, count, (ZERO,)), ask, (NIL,), (NIL,))), count)
    both(f"{13 * count} doublings through {count} copies, upwards: {title}", clauses, steps)


def carried(title, ask, end=("Z", "Z")):
    xs = chain("X", 12)
    step = Clause(("+", P, (S, "N"), (PAIR, xs[0], "C"), "T", "T"), ("~", P, "N", (PAIR, xs[12], "C"), row(xs[1:]), doubled(xs)))
    meet = Clause(("+", P, (ZERO,), (PAIR, *end), "T", "T"))
    clauses, steps = levels(step, meet, Clause(("~", P, tower(S, 31, (ZERO,)), ask, (NIL,), (NIL,))), 31)
    both(f"372 doublings, and a term carried along: {title}", clauses, steps)


def across():
    for count in (1, 2, 4, 8, 16, 31):
        down("success", count, (A,), Clause(("+", P, (ZERO,), "X", "T", "T")))
    down("a clash", 31, (A,), Clause(("+", P, (ZERO,), (B,), "T", "T")))
    down("a variable at the bottom", 31, "U", Clause(("+", P, (ZERO,), "X", "T", "T")))
    carried("a circle", (PAIR, "U", "U"))
    carried("a circle, the sides exchanged", (PAIR, "U", "U"), end=(twice("Z"), "Z"))
    carried("another variable, an answer that nobody could write", (PAIR, "U", "V"))
    carried("a clash", (PAIR, "U", (A,)))
    carried("a clash below the top", (PAIR, "U", (F, (A,), (A,))))
    up("an answer that nobody could write", 31, "Z", "X")
    up("an answer that nobody could write, of constants", 31, "Z", (A,))
    up("a clash at the top", 31, (A,), "X")
    up("a clash below the top", 31, (F, (F, (A,), (A,)), (A,)), "X")


# Two chains side by side, p(N, pair(X,Y), T, T), and compared at the end.
def side_by_side(title, count, ask, end, mixed=False):
    xs, ys = chain("X", 6), chain("Y", 6)
    lower = [*xs[:-1], *(xs[:-1] if mixed else ys[:-1])]
    equations = (row([*xs[1:], *ys[1:]]), row([twice(name) for name in lower]))
    step = Clause(("+", P, (S, "N"), (PAIR, xs[0], ys[0]), "T", "T"), ("~", P, "N", (PAIR, xs[6], ys[6]), *equations))
    clauses, steps = levels(step, end, Clause(("~", P, tower(S, count, (ZERO,)), ask, (NIL,), (NIL,))), count)
    both(f"two chains of {6 * count} doublings, {'shared' if mixed else 'unshared'}: {title}", clauses, steps)


def compared():
    meet = Clause(("+", P, (ZERO,), (PAIR, "Z", "Z"), "T", "T"))
    for count in (1, 2, 4, 8, 16, 31):
        side_by_side("success", count, (PAIR, (A,), (A,)), meet)
    side_by_side("a clash at the bottom", 31, (PAIR, (A,), (B,)), meet)
    side_by_side("a variable bound at the bottom, an answer", 31, (PAIR, "U", "V"), meet)
    side_by_side("a variable bound to a constant", 31, (PAIR, "U", (B,)), meet)
    side_by_side("a circle at the bottom", 31, (PAIR, "U", twice("U")), meet)
    side_by_side("success", 31, (PAIR, (A,), (A,)), meet, mixed=True)
    side_by_side("a variable", 31, (PAIR, "U", "V"), meet, mixed=True)
    apart = Clause(("+", P, (ZERO,), (PAIR, "Z", twice("Z")), "T", "T"))
    side_by_side("one against the double of the other", 31, (PAIR, "U", "V"), apart)
    side_by_side("one against the double of the other, of constants", 31, (PAIR, (A,), (A,)), apart)


# Variables that are all bound to one large term, which holds such variables of the copy before.
def crowded(title, ask, end):
    xs, ys = [f"X{i}" for i in range(6)], [f"Y{i}" for i in range(6)]
    large = row([xs[i % 6] for i in range(60)])
    equations = (row(["B", *ys]), row([large, *["B"] * 6]))
    step = Clause(("+", P, (S, "N"), row(xs), "T", "T"), ("~", P, "N", row(ys), *equations))
    clauses, steps = levels(step, end, Clause(("~", P, tower(S, 31, (ZERO,)), ask, (NIL,), (NIL,))), 31)
    both(f"six variables of each copy bound to one term of 121 words: {title}", clauses, steps)


def crowds():
    names = [f"Z{i}" for i in range(6)]
    crowded("success", row([(A,)] * 6), Clause(("+", P, (ZERO,), row(names), "T", "T")))
    crowded("compared", row([(A,)] * 6), Clause(("+", P, (ZERO,), row(["Z"] * 6), "T", "T")))
    crowded("a circle", row(["U"] * 6), Clause(("+", P, (ZERO,), row([*names[:5], (F, names[0], names[0])]), "T", "T")))
    crowded("against a row of itself", row(names), Clause(("+", P, (ZERO,), row([names[0], row([names[0], *names[1:]]), *names[2:]]), "T", "T")))


# Terms that grow deep and not wide.
def deep():
    meet = Clause(("+", P, (ZERO,), (PAIR, "Z", "Z")))
    for height in (10, 50, 110):
        step = Clause(("+", P, (S, "N"), (PAIR, "X", "Y")), ("~", P, "N", (PAIR, tower(G, height, "X"), tower(G, height, "Y"))))
        for title, ask in (("success", (PAIR, "U", "V")), ("a clash", (PAIR, (A,), (B,))), ("a circle", (PAIR, "U", (G, "U")))):
            clauses, steps = levels(step, meet, Clause(("~", P, tower(S, 31, (ZERO,)), ask)), 31)
            both(f"two towers of {31 * height}: {title}", clauses, steps)
    one = Clause(("+", P, (S, "N"), "X"), ("~", P, "N", tower(G, 240, "X")))
    clauses, steps = levels(one, Clause(("+", P, (ZERO,), "X")), Clause(("~", P, tower(S, 31, (ZERO,)), "U")), 31)
    both("a tower of 7440", clauses, steps)
    moved = Clause(("+", P, (ZERO,), "Z"), ("~", Q, "Z", (G, "Z")))
    for title, same in (("a circle", ("W", "W")), ("success", ("W", "V"))):
        clauses = [one, moved, Clause(("+", Q, *same)), Clause(("~", P, tower(S, 30, (ZERO,)), "U"))]
        both(f"a tower of 7200 and itself moved by one: {title}", clauses, [*[extension(0)] * 30, extension(1), extension(2)])
    upwards = Clause(("+", P, (S, "N"), tower(G, 240, "X")), ("~", P, "N", "X"))
    for answer in (7475, 7474, 4096):
        clauses, steps = levels(upwards, Clause(("+", P, (ZERO,), "X")), Clause(("~", P, tower(S, 31, (ZERO,)), "U")), 31)
        both(f"a tower of 7440 in the answer, in {answer} words", clauses, steps, answer=answer)


# Branches with as many ancestors as there can be, and the longest proof.
def branches():
    table = [Clause(*[("+", P)] * 7), Clause(*[("~", P)] * 7)]
    search("the longest branches: found", table)
    steps, used = [], 0

    def leaf(depth, extensions):
        nonlocal used
        if extensions == 0:
            steps.append(1)
            return
        steps.append(extension(depth % 2))
        used += 1
        leaf(depth + 1, extensions - 1)
        for _ in range(5):
            steps.append(1)

    for first in (26, 1, 1, 1, 1, 1, 1):
        leaf(0, first)
    assert used == 32 and len(steps) == 199
    check("the longest proof, 199 steps", table, steps)
    far = [Clause(("+", P, "X"), ("+", P, (F, "X", "X"))), Clause(("~", P, "X"), ("~", P, (G, "X"))), Clause(("~", P, (A,)))]
    search("long branches with reductions that fail", far, budget=20000)
    search("long branches, bounded", far, bound=12)


# As many clauses as there can be.
def many():
    number = lambda i: (PAIR, (10 + i % 64,), (100 + i // 64,))
    facts = [Clause(("+", P, number(i), (10 + i,))) for i in range(511)]
    search("512 clauses, the last fits", [*facts, Clause(("~", P, number(510), "X"))])
    search("512 clauses, none fits", [*facts, Clause(("~", P, (PAIR, (A,), (B,)), "X"))])
    doubles = [Clause(("+", Q, row([f"X{i}" for i in range(1, 5)]), doubled(chain("X", 4)), (10 + i,))) for i in range(500)]
    search("500 clauses that double, the last fits", [*doubles, Clause(("~", Q, "T", "T", (509,)))])


# As many restricted clauses as there can be: education passes over them (order 8).
def hidden():
    for title, marked in (("all", range(500)), ("all but the last", range(499)), ("every second one", range(0, 500, 2))):
        doubles = [Clause(("+", Q, row([f"X{i}" for i in range(1, 5)]), doubled(chain("X", 4)), (10 + i,))) for i in range(500)]
        for place in marked:
            doubles[place].words[0] |= 1 << 16
        search(f"500 clauses that double, {title} restricted", [*doubles, Clause(("~", Q, "T", "T", (509,)))], verb="edu-search")


# Thirteen copies of the question, each with a term of its own that grows from a constant: x1 = g(a,a,a,a), .. g(x1,x1,x1,x1), ..
# Equal terms are said once (order 3); the last copy's may differ in the last place alone, or each in the name of a variable.
def grown(count, bottom, last):
    xs = [bottom, *chain("X", count)[1:]]
    return Clause(("+", Q, row([*xs[1:], last]), row([*[(G, x, x, x, x) for x in xs[:-1]], last])))


def copies(title, first, other, answer=4096):
    ask = Clause(("~", P, (A,)), ("~", P, (A,)), ("~", Q, "T", "T"))
    six = [extension(3), 1, extension(1)] * 6
    steps = [extension(0), *six, extension(0), *six[:-1], extension(2), extension(1)]
    clauses = [Clause(*[("+", P, (A,))] * 7), first, other, ask]
    check(f"13 copies of the question, {title}", clauses, steps, answer=answer)


def repeats():
    for count in (1, 15):
        same, last, free = grown(count, (A,), (A,)), grown(count, (A,), (B,)), grown(count, "X0", (A,))
        copies(f"{count} times fourfold, all equal", same, same)
        copies(f"{count} times fourfold, one unequal in the last place", same, last)
        copies(f"{count} times fourfold, all apart by a variable's name", free, free)
        copies(f"{count} times fourfold, all equal but one by a variable's name", same, free)
    one = grown(1, (A,), (A,))
    copies("all equal, in the words of one", one, one, answer=23)
    copies("all equal, in a word fewer", one, one, answer=22)


# Rules read one way (order 11): a positive leaf is restarted. No closed proof has more than 224 steps, since each of seven goals has to be extended.
def restarts():
    positive = lambda *names: Clause(*[("+", Q, (name,)) for name in names])
    table = [positive(10, 11, 12, 13, 14, 15, 16), positive(10, 10, 10, 10, 10, 10, 11), positive(*[10] * 7), Clause(*[("~", Q, "X")] * 7)]
    restarted = [RESTART, *[1] * 7]
    steps = [*[extension(0), *restarted * 6] * 4, extension(1), *[1] * 5, *restarted, *[extension(2), *[1] * 6] * 2]
    assert len(steps) == 224
    check("the longest proof with restarts", table, steps, verb="restart-check")
    search("the longest proof with restarts, found", table, verb="restart-search")
    far = [Clause(("+", P, "X"), ("+", P, (F, "X", "X"))), Clause(("~", P, (A,)))]
    search("long branches of restarts with reductions that fail", far, budget=20000, verb="restart-search")
    search("long branches of restarts, bounded", far, bound=16, verb="restart-search")
    for count in (1, 15):
        same, last, free = grown(count, (A,), (A,)), grown(count, (A,), (B,)), grown(count, "X0", (A,))
        for title, first, other in (("all equal", same, same), ("one unequal in the last place", same, last), ("all apart by a variable's name", free, free)):
            ask = Clause(("~", P, (A,)), ("~", P, (A,)), ("~", Q, "T", "T"))
            six = [RESTART, 1, 1, extension(1)] * 6
            steps = [extension(0), *six, extension(0), *six[:-1], extension(2), extension(1)]
            clauses = [Clause(*[("+", P, (A,))] * 7), first, other, ask]
            check(f"13 copies of the question by restarts, {count} times fourfold, {title}", clauses, steps, verb="restart-check")


for family in (within, two_within, across, compared, crowds, deep, branches, many, hidden, repeats, restarts):
    family()
keep({"tests/hostile.txt": "\n".join(REQUESTS) + "\n"})
