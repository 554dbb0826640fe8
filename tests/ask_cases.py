#!/usr/bin/env python3
"""Writes inputs of document 01's program for crates/ask_cases, and what the program is to print for each: every refusal, every kind of result,
and both sides of every limit. The texts are those of the independent program in rust/ask; where document 01 itself gives a line, it has to be that."""
import struct
import subprocess

from lib.kept import TOP, keep
from lib.questions import Clause, file_of, fnv1a, tower

FULL = 4294967295
P, Q, R = 1, 2, 3  # predicates
E, MAT, EVE = (1,), (2,), (3,)
CASES = {}  # name: (input, how its text begins)

DOCUMENT = """status 0 place 0 tries 3
proof 40000000 40000001
or 80002001 40000001 40000002
or 80002001 40000001 40000003
"""
REFUSED = "status 4 place 0 tries 0\n"


def words(*numbers):
    return struct.pack(f"<{len(numbers)}I", *numbers)


def asked(name, bound, budget, file, begins=""):
    CASES[name] = (words(bound, budget, *file), begins)


def given(name, data, begins=""):
    CASES[name] = (data, begins)


CASE_1 = file_of([Clause(("+", P, E, MAT), ("+", P, E, EVE)), Clause(("~", P, E, "X"))])
assert CASE_1[-2] == 0x1AE33758

# document 01, "Questions to try": K, budgets and results as it gives them
asked("1-found", 2, 3, CASE_1, DOCUMENT)
asked("2-none", 1, FULL, CASE_1, "status 10 place 0 tries 4\n")
asked("3-none-with-no-tries", 0, 0, CASE_1, "status 10 place 0 tries 0\n")
asked("4-ran-out", 2, 2, CASE_1, "status 11 place 0 tries 2\n")
asked("5-no-mother-of-herself", 1, FULL, file_of([Clause(("+", P, "X", (1, "X"))), Clause(("~", P, "Y", "Y"))]), "status 10 place 0 tries 1\n")
asked("6-another-showing", 1, FULL, file_of([Clause(("+", P, E, MAT, EVE)), Clause(("~", P, E, MAT, (4,)))]), "status 10 place 0 tries 1\n")
asked(
    "7-one-variable",
    1,
    FULL,
    file_of([Clause(("+", P, (1, "X", (2, "Y")))), Clause(("~", P, (1, (2, "Z"), "Z")))]),
    "status 0 place 0 tries 1\nproof 40000000\nor 80001001 40002001 40001002 40001002 00000000 40001002 00000000\n",
)
asked("8-clash-below", 1, FULL, file_of([Clause(("+", P, (1, "X", (2, "X"), (3,)))), Clause(("~", P, (1, (4,), (2, "Z"), "Z")))]), "status 10 place 0 tries 1\n")
CASE_9 = file_of([Clause(("+", P), ("+", Q)), Clause(("+", P), ("~", Q)), Clause(("~", P))])
asked("9-reduction", 2, FULL, CASE_9, "status 0 place 0 tries 3\nproof 40000000 40000201 00000002\nor 80000001\n")
asked("9-none", 1, FULL, CASE_9, "status 10 place 0 tries 2\n")

# K is a whole word, and so is the budget
asked("bound-32", 32, 3, CASE_1)
for bound in (33, 34, 64, 66, 1 << 16 | 2, 1 << 31 | 2, FULL):
    asked(f"bound-{bound}", bound, 3, CASE_1, "status 3 place 0 tries 0\n")
asked("budget-0", 2, 0, CASE_1, "status 11 place 0 tries 0\n")
asked("budget-largest", 2, FULL, CASE_1, DOCUMENT)
asked("budget-over-16-bits", 2, 1 << 16 | 2, CASE_1, DOCUMENT)

# answers of several goals, of several disjuncts, and with variables
TWO_GOALS = [Clause(("~", P, "X"), ("~", Q, "Z", "Y"))]
asked("two-goals", 2, 9, file_of([Clause(("+", P, E)), Clause(("+", Q, MAT, "Y")), *TWO_GOALS]))
asked("two-goals-twice", 4, FULL, file_of([Clause(("+", P, E), ("+", P, EVE)), Clause(("+", Q, MAT, "Y")), *TWO_GOALS]))
asked("two-variables", 1, 9, file_of([Clause(("+", P, "X", "Y", "X")), Clause(("~", P, "U", "V", "W"))]))
asked("three-disjuncts", 5, FULL, file_of([Clause(("+", P, E), ("+", P, MAT), ("+", P, EVE)), Clause(("~", P, "X"))]))
asked("no-arguments", 1, 9, file_of([Clause(("+", P)), Clause(("~", P))]))


# an answer of 34 + 31 k + m words: 4,096 are the most
def towers(k, m):
    step = Clause(("+", P, (1, "N"), tower(2, k, "X")), ("~", P, "N", "X"))
    return file_of([step, Clause(("+", P, (3,), tower(2, m, "X"))), Clause(("~", P, tower(1, 31, (3,)), "U"))])


asked("answer-of-4096-words", 32, FULL, towers(131, 1), "status 0 place 0 tries 33\n")
asked("answer-of-4097-words", 32, FULL, towers(131, 2), "status 16 place 0 tries 33\n")
asked("answer-of-1025-words", 32, FULL, towers(31, 30), "status 0 place 0 tries 33\n")

# the file's own refusals, one of each; crates/file_cases has them all
asked("file-of-no-words", 2, 3, [], REFUSED)
asked("file-of-no-words-bound-33", 33, 3, [], "status 3 place 0 tries 0\n")
asked("file-of-five-words", 2, 3, CASE_1[:5], REFUSED)
asked("trailer", 2, 3, [*CASE_1[:-1], 12], "status 5 place 0 tries 0\n")
asked("fingerprint", 2, 3, [*CASE_1[:-2], 0, 11], "status 6 place 0 tries 0\n")


def with_trailer(body, question, count):
    return [*body, question, count, fnv1a(body), len(body)]


asked("malformed-word", 2, 3, with_trailer([*CASE_1[:5], 0x8000F001, *CASE_1[6:11]], 7, 2))
asked("malformed-clause", 2, 3, with_trailer([0, *CASE_1[1:11]], 7, 2), "status 7 place 0 tries 0\n")
asked("number-of-clauses", 2, 3, with_trailer(CASE_1[:11], 7, 1), "status 8 place 0 tries 0\n")
asked("positive-question", 2, 3, with_trailer([*CASE_1[:8], 0x80002001, *CASE_1[9:11]], 7, 2), "status 9 place 0 tries 0\n")

# ragged, short and long input
WHOLE = words(2, 3, *CASE_1)
for cut in (1, 2, 3):
    given(f"ragged-by-{cut}", WHOLE[:-cut], REFUSED)
    given(f"ragged-bound-33-by-{cut}", words(33, 3)[: 8 - cut] + b"\0" * 8, REFUSED)
given("nothing", b"", REFUSED)
given("one-byte", b"\2", REFUSED)
given("one-word", words(2), REFUSED)
given("seven-bytes", words(2, 3)[:7], REFUSED)
given("two-words", words(2, 3), REFUSED)
given("16002-words-bound-33", words(33, 3, *[0] * 16000), "status 3 place 0 tries 0\n")
given("16003-words-bound-33", words(33, 3, *[0] * 16001), REFUSED)
given("16002-words-and-a-byte-bound-33", words(33, 3, *[0] * 16000) + b"\0", REFUSED)
given("more-than-the-buffer-bound-33", words(33, 3, *[0] * 16500), REFUSED)

subprocess.run(["cargo", "build", "--release", "--offline", "--quiet", "--manifest-path", TOP / "rust/Cargo.toml", "-p", "ask"], check=True)
program = TOP / "rust/target/release/ask"
texts = {name: subprocess.run([program], input=data, capture_output=True, check=True).stdout.decode() for name, (data, _) in CASES.items()}
for name, (_, begins) in CASES.items():
    assert texts[name].startswith(begins), (name, texts[name][:200])
keep(
    {
        **{f"crates/ask_cases/data/{name}": data for name, (data, _) in CASES.items()},
        "crates/ask_cases/args": "".join(f"{name}\n" for name in CASES),
        "crates/ask_cases/stdout": "".join(f"{name}\n{texts[name]}" for name in CASES),
    },
    folders=["crates/ask_cases/data"],
)
