#!/usr/bin/env python3
"""The text of tables (document 02, order 2): asks the program `calls` for the text of the examples below and compares it with what the order
says, worked out here; then gives the texts to the parsers of E and SPASS where these are installed (CONTRIBUTING.md says how).
A table with one number at two arities is not given to them: both want one arity for a name."""
import pathlib
import shutil
import subprocess
import sys
import tempfile

from lib.questions import Clause, file_of

TOP = pathlib.Path(__file__).resolve().parent.parent
X, Y, Z = "X0", "X1", "X2"  # variables by first use, which is how `Clause` numbers them
TABLES = {  # tables, and whether every number has one arity in them
    "case 1": ([[("", 1, (1,), (2,)), ("", 1, (1,), (3,))], [("~", 1, (1,), X)]], True),
    "case 5": ([[("", 1, X, (1, X))], [("~", 1, X, X)]], True),
    "case 7": ([[("", 1, (1, X, (2, Y)))], [("~", 1, (1, (2, X), X))]], True),
    "case 9": ([[("", 1), ("", 2)], [("", 1), ("~", 2)], [("~", 1)]], True),
    "the order's clause": ([[("", 1, (1,), (2,)), ("~", 2, X)], [("~", 2, (1,))]], True),
    "largest numbers": ([[("~", 4095, (4095, (4094,), X, Y, Z))], [("~", 0, (0,))]], True),
    "a question alone": ([[("~", 10)]], True),
    "two arities": ([[("", 3, (7, (7, X, (7,))))], [("~", 3)]], False),
    "seven literals": ([[("~" * (n % 2), n, (n,)) for n in range(7)], [("~", 0, X)]], True),
    "512 clauses": ([[("", n % 9, (n % 4,))] for n in range(511)] + [[("~", 0, X), ("~", 1, X)]], True),
}


def term(t):
    return t if isinstance(t, str) else "f" + str(t[0]) + arguments(t[1:])


def arguments(terms):
    return "(" + ",".join(map(term, terms)) + ")" if terms else ""


def literal(sign, predicate, *terms):
    return ("~ " if sign else "") + "p" + str(predicate) + arguments(terms)


def text_of(clauses):
    roles = ["axiom"] * (len(clauses) - 1) + ["negated_conjecture"]
    return "".join(
        f"cnf(c{number},{role},({' | '.join(literal(*l) for l in clause)})).\n"
        for number, (role, clause) in enumerate(zip(roles, clauses))
    )


def examples():
    for name, (clauses, plain) in TABLES.items():
        yield name, file_of([Clause(*clause) for clause in clauses]), text_of(clauses), plain


def request(length, file):
    return f"tptp-out {length} / {' '.join(f'{word:08X}' for word in file) or '-'}"


def requests():
    """Requests and their results: with room to spare, just enough, and one byte short; then files that are refused."""
    for _, file, text, _ in examples():
        n, written = len(text), text.encode().hex().upper()
        for room in (131072, n):
            yield request(room, file), f"status 0 place 0 bytes {n} / {written}"
        for room in (n - 1, 0):
            yield request(room, file), "status 16 place 0 bytes 0 / -"
    _, file, text, _ = next(examples())
    changed = [*file[:3], file[3] ^ 1, *file[4:]]
    yield request(len(text), []), "status 4 place 0 bytes 0 / -"
    yield request(0, file[1:]), "status 5 place 0 bytes 0 / -"
    yield request(0, changed), "status 6 place 0 bytes 0 / -"
    yield request(131073, file), "error"


def answers():
    asked = list(requests())
    run = subprocess.run([TOP / "tests/program", "calls"], input="\n".join(line for line, _ in asked) + "\n", capture_output=True, text=True, check=True)
    for (line, wanted), got in zip(asked, run.stdout.splitlines(), strict=True):
        if wanted != got:
            sys.exit(f"{line[:200]}\nwanted {wanted[:200]}\ngot    {got[:200]}")
    print(f"{len(asked)} texts and refusals are as the order says")


PARSERS = {"eprover": ["--tstp-in", "--cnf"], "SPASS": ["-TPTP", "-Loops=0"]}


def parsed(parser, path, clauses):
    run = subprocess.run([parser, *PARSERS[parser], path], capture_output=True, text=True, timeout=60)
    if parser == "eprover":
        return run.returncode == 0 and f": {clauses}" in next((l for l in run.stdout.splitlines() if "Parsed axioms" in l), "")
    return run.returncode == 0 and "SPASS beiseite" in run.stdout


def read_by_others():
    for parser in PARSERS:
        if not shutil.which(parser):
            print(f"{parser} is not installed: its parser is not tried")
            continue
        plain = [(name, text) for name, _, text, one_arity in examples() if one_arity]
        with tempfile.TemporaryDirectory() as folder:
            path = pathlib.Path(folder) / "table.p"
            for name, text in plain:
                path.write_text(text)
                if not parsed(parser, path, text.count("\n")):
                    sys.exit(f"{parser} does not read the text of {name}")
        print(f"{parser} reads {len(plain)} texts")


if __name__ == "__main__":
    if sys.argv[1:] != ["parsers"]:
        answers()
    read_by_others()
