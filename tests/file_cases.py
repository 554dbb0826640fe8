#!/usr/bin/env python3
"""Writes question files for crates/file_cases, with the status and place that documents 01 and 02 give each of them, worked out here from their text.

A case is a file of words in data/, and a line of stdout: name, status, place, the lengths of clauses 0, 1, 511 and 512 as looked up, and a
fingerprint of clause 1. Every case states the status and place that its maker had in mind; `judge` below, a second reading of the documents,
has to agree with them.
"""
import struct

from lib.kept import keep

VARIABLE, FUNCTION, LITERAL, CLAUSE = range(4)


class Malformed(Exception):
    def __init__(self, place):
        self.place = place


# -- document 01, "Words of the question file" and "What comes back", with the mark of document 02 (order 8): the judgement of a file


def fingerprint(body):
    h = 0x811C9DC5
    for word in body:
        for byte in word.to_bytes(4, "little"):
            h = (h ^ byte) * 0x01000193 % 2**32
    return h


def field(word, low, high):
    return (word >> low) & ((1 << (high - low + 1)) - 1)


def read_terms(body, at, end, variables, count):
    """Reads so many terms from a place; gives the place after them."""
    for _ in range(count):
        if at == end:
            raise Malformed(end)
        word = body[at]
        kind = field(word, 30, 31)
        if kind == VARIABLE and field(word, 10, 29) == 0 and field(word, 0, 9) < variables:
            at += 1
        elif kind == FUNCTION and field(word, 15, 29) == 0 and field(word, 12, 14) <= 4:
            at = read_terms(body, at + 1, end, variables, field(word, 12, 14))
        else:
            raise Malformed(at)
    return at


def read_clause(body, start):
    """Reads the clause at a place; gives the signs of its literals (True = negative) and the place after it."""
    word = body[start]
    literals, variables, following = field(word, 0, 2), field(word, 3, 7), field(word, 8, 15)
    end = start + 1 + following
    fields_right = field(word, 30, 31) == CLAUSE and field(word, 17, 29) == 0 and 1 <= literals and variables <= 16
    if not fields_right or following < 1 or end > len(body):
        raise Malformed(start)
    at, signs = start + 1, []
    for _ in range(literals):
        if at == end:
            raise Malformed(end)
        word = body[at]
        if field(word, 30, 31) != LITERAL or field(word, 16, 29) != 0 or field(word, 12, 14) > 4:
            raise Malformed(at)
        signs.append(field(word, 15, 15) == 1)
        at = read_terms(body, at + 1, end, variables, field(word, 12, 14))
    if at < end:
        raise Malformed(at)
    return signs, end


def clause_starts(body):
    """Where the clauses of a sound body begin, with the place after the last."""
    starts = [0]
    while starts[-1] < len(body):
        starts.append(read_clause(body, starts[-1])[1])
    return starts


def lookup(words, number):
    """The words of a clause; none for a file refused, or a number not below the clause count."""
    if judge(words)[0] != 0 or number >= words[-3]:
        return []
    starts = clause_starts(words[:-4])
    return words[starts[number] : starts[number + 1]]


def judge(words):
    if len(words) < 6 or len(words) > 16000:
        return 4, 0
    body, (question, count, print_, length) = words[:-4], words[-4:]
    if length != len(words) - 4 or not 1 <= count <= 512 or not question < length:
        return 5, 0
    if print_ != fingerprint(body):
        return 6, 0
    at, starts, signs = 0, [], []
    try:
        while at < len(body):
            starts.append(at)
            signs, at = read_clause(body, at)
    except Malformed as bad:
        return 7, bad.place
    if len(starts) != count or starts[-1] != question:
        return 8, 0
    if not all(signs):
        return 9, 0
    if field(body[question], 16, 16) == 1:
        return 21, 0
    return 0, 0


# -- words and files


def var(number):
    return number


def fun(symbol, arity=0):
    return 1 << 30 | arity << 12 | symbol


def lit(predicate, arity=0, negative=False):
    return 2 << 30 | negative << 15 | arity << 12 | predicate


def neg(predicate, arity=0):
    return lit(predicate, arity, True)


def head(literals, variables, following):
    return 3 << 30 | following << 8 | variables << 3 | literals


def clause(literals, variables, *words):
    return [head(literals, variables, len(words)), *words]


def file(*clauses, question=None, count=None, length=None, mark=None):
    """A file of these clauses, with a trailer that fits unless told otherwise."""
    body = [word for c in clauses for word in c]
    fits = [len(body) - len(clauses[-1]), len(clauses), fingerprint(body), len(body)]
    told = [question, count, mark, length]
    return body + [f if t is None else t for f, t in zip(fits, told)]


CASES = {}


def case(name, words, status, place=0):
    assert name not in CASES
    assert judge(words) == (status, place), (name, judge(words), (status, place))
    CASES[name] = (words, status, place)


def chain(words, negative):
    """A clause of so many words: one literal on one deep term."""
    return clause(1, 0, lit(1, 1, negative), *[fun(2, 1)] * (words - 3), fun(3))


def restricted(words):
    """The clause with its mark."""
    return [words[0] | 1 << 16, *words[1:]]


FACT = clause(1, 0, lit(1))
ASK = clause(1, 0, neg(1))
PAIR = clause(2, 0, lit(1, 2), fun(1), fun(2), lit(1, 2), fun(1), fun(3))
WHO = clause(1, 1, neg(1, 2), fun(1), var(0))

# document 01's case 1, word for word
BODY = "C0000602 80002001 40000001 40000002 80002001 40000001 40000003 C0000309 8000A001 40000001 00000000"
assert file(PAIR, WHO) == [*(int(w, 16) for w in BODY.split()), 7, 2, fingerprint(PAIR + WHO), 11]

# accepted; case 12's limits
case("ok-question-alone", file(ASK), 0)
case("ok-fact-and-question", file(FACT, ASK), 0)
case("ok-case-1", file(PAIR, WHO), 0)
case("ok-variable-15-of-16", file(clause(1, 16, neg(1, 1), var(15))), 0)
case("ok-unused-variables", file(clause(1, 16, neg(1, 1), fun(4095))), 0)
case("ok-arity-4-nested", file(clause(1, 2, neg(4095, 4), fun(1, 4), var(0), var(1), fun(2), fun(3, 1), var(0), fun(4), fun(5), fun(6))), 0)
case("ok-seven-literals", file(clause(7, 0, *[neg(n) for n in range(7)])), 0)
case("ok-clause-of-256-words", file(chain(256, True)), 0)
case("ok-512-clauses", file(*[FACT] * 511, ASK), 0)
case("ok-16000-words", file(*[chain(256, False)] * 62, chain(124, True)), 0)

# 4: under 6 or over 16,000 words
case("4-no-words", [], 4)
case("4-trailer-alone", file([]), 4)
case("4-five-words", file([head(1, 0, 1)]), 4)
case("4-16001-words", file(*[chain(256, False)] * 62, chain(125, True)), 4)

# 5: trailer (3) is not file length - 4, (1) not 1-512, or (0) not below (3)
case("5-length-less", file(FACT, ASK, length=3), 5)
case("5-length-more", file(FACT, ASK, length=5), 5)
case("5-length-with-trailer", file(FACT, ASK, length=8), 5)
case("5-no-clauses", file(FACT, ASK, count=0), 5)
case("5-513-clauses", file(*[FACT] * 512, ASK), 5)
case("5-question-after-the-body", file(FACT, ASK, question=4), 5)
case("5-question-far-away", file(FACT, ASK, question=0xFFFFFFFF), 5)
case("5-before-6", file(FACT, ASK, count=0, mark=0), 5)

# 6: fingerprint differs
case("6-one-more", file(FACT, ASK, mark=fingerprint(FACT + ASK) + 1), 6)
case("6-zero", file(FACT, ASK, mark=0), 6)
case("6-of-the-first-clause", file(FACT, ASK, mark=fingerprint(FACT)), 6)
case("6-of-the-bytes-turned", file(FACT, ASK, mark=fingerprint([int.from_bytes(w.to_bytes(4, "little"), "big") for w in FACT + ASK])), 6)
case("6-before-7", file([var(0)], ASK, mark=0), 6)

# 7 at the clause word: kind, fields, length
case("7-clause-kind-variable", file([var(0)], ASK), 7, 0)
case("7-clause-kind-function", file([fun(1)], ASK), 7, 0)
case("7-clause-kind-literal", file([lit(1)], ASK), 7, 0)
case("7-clause-bit-17", file([FACT[0] | 1 << 17, *FACT[1:]], ASK), 7, 0)
case("7-restricted-clause-bit-17", file(FACT, [FACT[0] | 3 << 16, *FACT[1:]], ASK), 7, 2)
case("7-clause-bit-29", file([FACT[0] | 1 << 29, *FACT[1:]], ASK), 7, 0)
case("7-clause-no-literals", file([head(0, 0, 1), lit(1)], ASK), 7, 0)
case("7-clause-17-variables", file([head(1, 17, 1), lit(1)], ASK), 7, 0)
case("7-clause-31-variables", file([head(1, 31, 1), lit(1)], ASK), 7, 0)
case("7-clause-length-0", file([head(1, 0, 0)], ASK), 7, 0)
case("7-clause-length-0-at-the-end", file(FACT, [head(1, 0, 0)]), 7, 2)
case("7-clause-past-the-body-by-one", file(FACT, [head(1, 0, 2), neg(1)]), 7, 2)
case("7-clause-past-the-body-by-far", file(FACT, [head(1, 0, 255), neg(1)]), 7, 2)
case("7-second-clause-kind", file(FACT, [lit(1), lit(1)], ASK), 7, 2)
case("7-third-clause-17-variables", file(PAIR, FACT, [head(1, 17, 1), neg(1)]), 7, 9)

# 7 at the first wrong word: where a literal is due, where a term is due
case("7-literal-variable", file([head(1, 1, 1), var(0)], ASK), 7, 1)
case("7-literal-function", file([head(1, 0, 1), fun(1)], ASK), 7, 1)
case("7-literal-clause", file([head(1, 0, 1), head(1, 0, 1)], ASK), 7, 1)
case("7-literal-bit-16", file([head(1, 0, 1), lit(1) | 1 << 16], ASK), 7, 1)
case("7-literal-bit-29", file([head(1, 0, 1), lit(1) | 1 << 29], ASK), 7, 1)
case("7-literal-arity-5", file(clause(1, 0, lit(1, 5), *[fun(1)] * 5), ASK), 7, 1)
case("7-literal-second", file(clause(2, 0, lit(1, 1), fun(1), fun(2)), ASK), 7, 3)
case("7-variable-16-of-16", file(clause(1, 16, neg(1, 1), var(16))), 7, 2)
case("7-variable-0-of-0", file(FACT, clause(1, 0, neg(1, 1), var(0))), 7, 4)
case("7-variable-bit-10", file(clause(1, 16, neg(1, 1), var(0) | 1 << 10)), 7, 2)
case("7-variable-bit-29", file(clause(1, 16, neg(1, 1), var(0) | 1 << 29)), 7, 2)
case("7-function-bit-15", file(clause(1, 0, neg(1, 1), fun(1) | 1 << 15)), 7, 2)
case("7-function-bit-29", file(clause(1, 0, neg(1, 1), fun(1) | 1 << 29)), 7, 2)
case("7-function-arity-5", file(clause(1, 0, neg(1, 1), fun(1, 5), *[fun(1)] * 5)), 7, 2)
case("7-function-arity-7", file(clause(1, 0, neg(1, 1), fun(1, 7), *[fun(1)] * 7)), 7, 2)
case("7-term-literal", file(clause(1, 0, neg(1, 1), lit(2))), 7, 2)
case("7-term-clause", file(clause(1, 0, neg(1, 1), head(1, 0, 1))), 7, 2)
case("7-term-nested", file(FACT, clause(1, 2, neg(1, 2), fun(1, 2), var(1), var(2), var(0))), 7, 6)
case("7-first-of-two-wrong", file(clause(1, 1, neg(1, 2), var(3), var(2))), 7, 2)
case("7-wrong-before-short", file(clause(2, 0, neg(1, 2), lit(1))), 7, 2)

# 7 just after a clause that stops before its last literal is complete
case("7-short-of-a-literal", file(clause(2, 0, lit(1)), ASK), 7, 2)
case("7-short-of-an-argument", file(clause(1, 0, lit(1, 2), fun(1)), ASK), 7, 3)
case("7-short-of-a-nested-argument", file(clause(1, 0, lit(1, 1), fun(1, 2), fun(2)), ASK), 7, 4)
case("7-short-at-the-end", file(FACT, clause(1, 0, neg(1, 1))), 7, 4)
case("7-short-of-the-second-literal-s-argument", file(FACT, clause(2, 0, neg(1), neg(2, 1)), ASK), 7, 5)

# 7 at the first word left over
case("7-left-over-literal", file(clause(1, 0, lit(1), lit(2)), ASK), 7, 2)
case("7-left-over-term", file(clause(1, 0, lit(1, 1), fun(1), fun(2), fun(3)), ASK), 7, 3)
case("7-left-over-clause-word", file(clause(1, 0, lit(1), *ASK)), 7, 2)
case("7-left-over-at-the-end", file(FACT, clause(1, 0, neg(1), neg(2))), 7, 4)

# 7 ends the reading at once, and comes before 8
case("7-first-of-two-clauses", file(clause(2, 0, lit(1)), [head(0, 0, 1), lit(1)], ASK), 7, 2)
case("7-before-8", file(FACT, clause(1, 0, neg(1), neg(2)), count=5, question=1), 7, 4)
case("7-in-the-last-clause-before-8", file(*[FACT] * 512, [head(1, 17, 1), neg(1)], count=512), 7, 1024)

# 8: clauses read differ from (1), or the last does not begin at (0)
case("8-one-clause-more", file(FACT, ASK, count=1), 8)
case("8-one-clause-less", file(FACT, ASK, count=3), 8)
case("8-513-clauses-told-512", file(*[FACT] * 512, ASK, count=512), 8)
case("8-question-first", file(ASK, ASK, question=0), 8)
case("8-question-inside-a-clause", file(FACT, ASK, question=3), 8)
case("8-before-9", file(FACT, FACT, question=0), 8)

# 9: positive literal in the question
case("9-fact-asked", file(FACT), 9)
case("9-second-of-two", file(FACT, clause(2, 0, neg(1), lit(2))), 9)
case("9-first-of-two", file(ASK, clause(2, 1, lit(1, 1), var(0), neg(1))), 9)
case("9-before-21", file(FACT, restricted(FACT)), 9)

# bit 16 marks a clause as restricted; 21: a restricted question
case("ok-restricted", file(restricted(FACT), ASK), 0)
case("ok-restricted-second-of-two", file(PAIR, restricted(PAIR), WHO), 0)
case("ok-restricted-all", file(restricted(FACT), restricted(ASK), restricted(FACT), ASK), 0)
case("7-restricted-clause-17-variables", file(FACT, restricted(clause(1, 17, lit(1))), ASK), 7, 2)
case("7-restricted-wrong-word", file(restricted(clause(1, 0, lit(1, 1), var(0))), restricted(ASK)), 7, 2)
case("8-before-21", file(FACT, restricted(ASK), count=1), 8)
case("21-question-alone", file(restricted(ASK)), 21)
case("21-fact-and-question", file(FACT, restricted(ASK)), 21)
case("21-all-restricted", file(restricted(FACT), restricted(FACT), restricted(WHO)), 21)


def line(name, words, status, place):
    lengths = " ".join(str(len(lookup(words, number))) for number in (0, 1, 511, 512))
    return f"{name} status {status} place {place} clauses {lengths} second {fingerprint(lookup(words, 1)):08x}\n"


keep(
    {
        **{f"crates/file_cases/data/{name}": struct.pack(f"<{len(words)}I", *words) for name, (words, _, _) in CASES.items()},
        "crates/file_cases/args": "".join(f"{name}\n" for name in CASES),
        "crates/file_cases/stdout": "".join(line(name, *case) for name, case in CASES.items()),
    },
    folders=["crates/file_cases/data"],
)
