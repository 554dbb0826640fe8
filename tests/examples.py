#!/usr/bin/env python3
"""examples.py [--check]: works out what `hukolearu ask` prints for the texts in examples/, and writes examples/expected/NAME.out; what `hukolearu check`
and `hukolearu draw` print for the proofs TEXT-WHAT.proof in examples/proofs/ of the texts TEXT.p: examples/expected/TEXT-WHAT.check and .dot (the drawing
of an accepted proof), and two drawings in docs/pictures/. For `season`, examples/NAME.questions are put to examples/NAME.p, and for `desk` every day and
house up to the records' largest to examples/desk.records: examples/expected/NAME.season and desk.reports. With --check, compares with what is kept.
The bound, tries, proof and answer come from the independent Rust program (rust/calls, verbs tptp-in, smallest, check and desk); names, places in a text
and the lines themselves are worked out here from document 02 and docs/CATALOGUER.md, the leaves of a proof and what its variables are bound to from
document 01's "Tableau rules".
Refusals are written by hand below."""
import itertools, os, re, subprocess, sys

top = os.path.dirname(os.path.dirname(os.path.abspath(__file__)))
os.chdir(top)
LIMIT, BUDGET = 32, 10_000_000

REFUSALS = {
    "wrong": """examples/wrong.p:3:41: the text goes wrong here
  cnf(bill_3, axiom, ( on(may3, matinee)) | on(may3, evening) )).
                                          ^
expected `)`
% SZS status InputError for examples/wrong.p
""",
    "two_questions": """examples/two_questions.p: there is more than one question (role negated_conjecture): first_question and second_question
% SZS status InputError for examples/two_questions.p
""",
    "over": """examples/over.p: the clause any_role has more than 7 literals, the most that a clause may have
% SZS status InputError for examples/over.p
""",
    "matinee-misspelt": """examples/proofs/matinee-misspelt.proof:2:8: the proof goes wrong here
  extend playd_3 0
         ^
expected a clause: a name that one clause alone has, or a number
% SZS status InputError for examples/matinee.p
""",
}


def calls(line):
    run = subprocess.run([os.environ.get("RUST_CALLS", "rust/target/release/calls")], input=line + "\n", capture_output=True, text=True, check=True)
    return run.stdout.rstrip("\n")


def fields(line):
    head, *rest = line.split(" / ")
    words = head.split()
    return dict(zip(words[::2], map(int, words[1::2]))), [[] if part == "-" else [int(w, 16) for w in part.split()] for part in rest]


def names(text):
    """Predicates and functions by first use, the clauses' names with the question's last, and the number of its literals."""
    text = re.sub(r"%[^\n]*", "", text)
    predicates, functions, clauses, question, atoms = [], [], [], None, 0
    for name, role, formula in re.findall(r"cnf\s*\(\s*(\w+)\s*,\s*(\w+)\s*,(.*?)\)\s*\.", text, re.S):
        depth = 0
        whole = re.match(r"\s*\(", formula) is not None
        for token in re.findall(r"\w+|[^\w\s]", formula):
            if token == "(":
                depth += 1
            elif token == ")":
                depth -= 1
            elif token[0].islower():
                kind = predicates if depth == (1 if whole else 0) else functions
                if token not in kind:
                    kind.append(token)
        if role == "negated_conjecture":
            question, atoms = name, formula.count("~")
        else:
            clauses.append(name)
    return predicates, functions, clauses + [question], atoms


def shown(words, predicates, functions):
    """The first term or literal of some words, and the rest."""
    w, rest = words[0], words[1:]
    if w >> 30 == 0:
        return f"X{w & 1023}", rest
    name, arguments = (functions if w >> 30 == 1 else predicates)[w & 4095], []
    for _ in range(w >> 12 & 7):
        argument, rest = shown(rest, predicates, functions)
        arguments.append(argument)
    return name + (f"({','.join(arguments)})" if arguments else ""), rest


def question_file(path):
    data = open(path, "rb").read()
    read, (file,) = fields(calls(f"tptp-in 16000 / {data.hex().upper()}"))
    assert read["status"] == 0, path
    return data.decode(), file


def hexed(words):
    return " ".join(f"{w:08X}" for w in words) or "-"


def clause_words(file):
    """The words of each clause of a file, after its clause word."""
    parts, at = [], 0
    while at < len(file) - 4:
        end = at + (file[at] >> 8 & 255) + 1
        parts.append(file[at + 1:end])
        at = end
    return parts


def literals(words, predicates, functions):
    """The literals of a clause, each as it is shown, with its sign, predicate and arity."""
    told = []
    while words:
        w = words[0]
        text, words = shown(words, predicates, functions)
        told.append((("~ " if w >> 15 & 1 else "") + text, w >> 15 & 1, w & 4095, w >> 12 & 7))
    return told


def steps_said(text, clauses):
    """The steps of a proof's text: pairs ("reduce", height) and ("extend", clause, literal), or other words as they are."""
    pieces, steps = text.split(), []
    while pieces:
        verb = pieces.pop(0)
        if verb == "reduce":
            steps.append(("reduce", int(pieces.pop(0))))
        elif verb == "extend":
            clause = pieces.pop(0)
            steps.append(("extend", int(clause) if clause.isdigit() else clauses.index(clause), int(pieces.pop(0))))
        else:
            w = int(verb, 16)
            if w >> 30 == 0 and 1 <= w <= 63:
                steps.append(("reduce", w))
            elif w >> 30 == 1 and w & 0x3FFFF000 == 0:
                steps.append(("extend", w & 511, w >> 9 & 7))
            else:
                steps.append(("word", w))
    return steps


def step_word(step):
    return step[1] if step[0] != "extend" else 1 << 30 | step[2] << 9 | step[1]


def tableau(steps, sizes):
    """For each step, and after the last, the leftmost leaf: (step that hung it, clause, literal, its ancestors, nearest first)."""
    question = len(sizes) - 1
    leaves, leftmost = [(0, question, j, []) for j in range(sizes[question])], []
    for number, step in enumerate(steps, 1):
        leaf = leaves.pop(0) if leaves else None
        leftmost.append(leaf)
        if leaf and step[0] == "extend" and step[1] < len(sizes):
            hung = [(number, step[1], j, [leaf] + leaf[3]) for j in range(sizes[step[1]]) if j != step[2]]
            leaves = hung + leaves
    return leftmost + [leaves[0] if leaves else None]


def terms(words, copy, count):
    """So many terms of a copy of a clause, and the words after them: a variable is (copy, number), anything else [word, arguments]."""
    told = []
    for _ in range(count):
        w, words = words[0], words[1:]
        if w >> 30 == 0:
            told.append((copy, w & 1023))
        else:
            arguments, words = terms(words, copy, w >> 12 & 7)
            told.append([w, arguments])
    return told, words


def atoms(words, copy):
    told = []
    while words:
        w = words[0]
        arguments, words = terms(words[1:], copy, w >> 12 & 7)
        told.append([w, arguments])
    return told


def varies(term):
    return isinstance(term, tuple) or any(varies(argument) for argument in term[1])


def follow(term, bound):
    while isinstance(term, tuple) and term in bound:
        term = bound[term]
    return term


def holds(term, variable, bound, passed):
    """A variable occurs in a term; the variables that were looked into are passed once."""
    if isinstance(term, tuple) and term in bound:
        if term in passed:
            return False
        passed.add(term)
        return holds(bound[term], variable, bound, passed)
    return term == variable if isinstance(term, tuple) else any(holds(argument, variable, bound, passed) for argument in term[1])


def unify(left, right, bound):
    """Two atoms of a proof that the checker has accepted up to here are made equal."""
    left, right = follow(left, bound), follow(right, bound)
    if isinstance(left, tuple) or isinstance(right, tuple):
        if left == right:
            return
        variable, term = (right, left) if isinstance(right, tuple) else (left, right)
        assert not holds(term, variable, bound, set())
        bound[variable] = term
        return
    assert left[0] == right[0]
    for one, other in zip(left[1], right[1]):
        unify(one, other, bound)


def words_under(term, bound):
    """A literal's words under what is bound, one by one; a free variable is numbered by its copy and its own number."""
    term = follow(term, bound)
    if isinstance(term, tuple):
        yield term[0] * 16 + term[1]
        return
    yield term[0]
    for argument in term[1]:
        yield from words_under(argument, bound)


def words_shown(words, predicates, functions):
    """Words of a literal as text, up to wherever they end."""
    text, lists = "", []
    for w in words:
        if w >> 30 == 0:
            text += f"X{w}"
        elif w >> 30 == 1:
            text += functions[w & 4095]
        else:
            text += ("~ " if w >> 15 & 1 else "") + predicates[w & 4095]
        arity = 0 if w >> 30 == 0 else w >> 12 & 7
        if arity:
            text, lists = text + "(", lists + [arity - 1]
            continue
        while lists and not lists[-1]:
            text, lists = text + ")", lists[:-1]
        if lists:
            text, lists = text + ",", lists[:-1] + [lists[-1] - 1]
    return text


class Offered:
    def __init__(self, path, proof):
        self.path = path
        text, self.file = question_file(path)
        self.predicates, self.functions, self.clauses, self.atoms = names(text)
        self.literals = [literals(own, self.predicates, self.functions) for own in clause_words(self.file)]
        self.steps = steps_said(open(proof).read(), self.clauses)
        self.leaves = tableau(self.steps, [len(c) for c in self.literals])
        line = calls(f"check {LIMIT} 16384 4096 / {hexed(map(step_word, self.steps))} / {hexed(self.file)}")
        self.told, (_, self.answer) = fields(line)

    def reference(self, clause):
        name = self.clauses[clause] if clause < len(self.clauses) else ""
        return name if self.clauses.count(name) == 1 else str(clause)

    def step(self, step):
        if step[0] == "reduce":
            return f"reduce {step[1]}"
        return f"{step[1]:08X}" if step[0] == "word" else f"extend {self.reference(step[1])} {step[2]}"

    def bind(self, count):
        """The copies that the first steps make, by the step that hung each, and what they bind."""
        question = len(self.clauses) - 1
        words = clause_words(self.file)
        self.copies, self.bound = {0: atoms(words[question], 0)}, {}
        for place, step in enumerate(self.steps[:count]):
            number, _, literal, branch = self.leaves[place]
            if step[0] == "extend":
                self.copies[place + 1] = atoms(words[step[1]], len(self.copies))
                other = self.copies[place + 1][step[2]]
            else:
                other = self.copies[branch[step[1] - 1][0]][branch[step[1] - 1][2]]
            mine = self.copies[number][literal]
            unify([mine[0] & ~0x8000, mine[1]], [other[0] & ~0x8000, other[1]], self.bound)

    def under(self, number, clause, literal):
        """A literal that has variables, in a copy that has been made, under what is bound: up to 64 words and 120 bytes."""
        if number not in self.copies or not varies(self.copies[number][literal]):
            return None
        words = list(itertools.islice(words_under(self.copies[number][literal], self.bound), 65))
        text = words_shown(words[:64], self.predicates, self.functions) + ("..." if len(words) > 64 else "")
        return text if len(text) <= 120 else text[:120] + "..."

    def leaf(self, label, leaf):
        if not leaf:
            return [f"{label}: there is none"]
        number, clause, literal = leaf[:3]
        hung = f"by step {number}" if number else "at the start"
        there = self.under(number, clause, literal)
        line = f"{label}: {self.literals[clause][literal][0]}, literal {literal} of {self.clauses[clause]} (clause {clause}), hung {hung}"
        return [line] + ([f"  there: {there}"] if there else [])

    def partner(self, place):
        step, leaf = self.steps[place], self.leaves[place]
        if step[0] == "reduce":
            return leaf[3][step[1] - 1] if leaf and step[1] <= len(leaf[3]) else None
        if step[0] == "extend" and step[1] < len(self.literals) and step[2] < len(self.literals[step[1]]):
            return (place + 1, step[1], step[2])
        return None

    def reason(self, leaf, other):
        if not leaf:
            return "All leaves are closed already."
        if not other:
            return "There is no such clause, literal or ancestor."
        (_, s, p, n), (_, t, q, m) = self.literals[leaf[1]][leaf[2]], self.literals[other[1]][other[2]]
        if s == t or p != q or n != m:
            return "The two literals do not fit: a pair has opposite signs, the same predicate and as many arguments."
        return f"The limit is reached: {LIMIT} clauses may be used."

    def wrong(self, place):
        step, leaf, other = self.steps[place], self.leaves[place], self.partner(place)
        fault = {
            12: "is no step",
            13: "is not possible",
            14: "is a clash: under what is bound so far the two literals have different symbols in one place",
            20: "is a circle: under what is bound so far a variable would stand for a term that holds it",
        }[self.told["status"]]
        label = {"reduce": "ancestor", "extend": "clause", "word": "literal"}[step[0]]
        lines = [f"Not accepted: step {place + 1} {fault}", f"  {self.step(step)}"] + self.leaf("leaf", leaf) + self.leaf(label, other)
        return lines + ([self.reason(leaf, other)] if self.told["status"] == 13 else [])

    def checked(self):
        self.bind(self.told["place"] if self.told["status"] else len(self.steps))
        if self.told["status"] == 15:
            lines = [f"Not accepted: leaves are open after the last step, {len(self.steps)}; the leftmost:"] + self.leaf("leaf", self.leaves[-1])
        elif self.told["status"]:
            lines = self.wrong(self.told["place"])
        else:
            disjuncts = answer_lines(self.answer, self.predicates, self.functions, self.atoms)
            many = "a definite answer" if len(disjuncts) == 1 else f"an answer with {len(disjuncts)} alternatives, not definite"
            lines = [f"Accepted: {many} (steps {len(self.steps)})"] + disjuncts + behind(map(step_word, self.steps), self.clauses)
        return "\n".join(lines) + f"\n% SZS status {'Unknown' if self.told['status'] else 'Unsatisfiable'} for {self.path}\n"

    def node(self, number, clause, literal):
        there = self.under(number, clause, literal)
        return f'    n{number}_{literal} [label="{self.literals[clause][literal][0]}' + (f"\\n{there}" if there else "") + '"];'

    def box(self, number, clause):
        lines = [f"  subgraph cluster_{number} {{", f'    label="{self.clauses[clause]}";']
        return lines + [self.node(number, clause, j) for j in range(len(self.literals[clause]))] + ["  }"]

    def drawn(self):
        self.bind(len(self.steps))
        lines = ["digraph tableau {", "  ordering=out;", "  node [shape=box];", "  edge [arrowhead=none];"] + self.box(0, len(self.clauses) - 1)
        for place, step in enumerate(self.steps):
            number, _, literal, branch = self.leaves[place]
            if step[0] == "extend":
                lines += self.box(place + 1, step[1])
                for j in range(len(self.literals[step[1]])):
                    lines.append(f"  n{number}_{literal} -> n{place + 1}_{j}{' [style=bold]' if j == step[2] else ''};")
            else:
                above = branch[step[1] - 1]
                lines.append(f"  n{number}_{literal} -> n{above[0]}_{above[2]} [style=dashed, arrowhead=normal, constraint=false];")
        return "\n".join(lines + ["}"]) + "\n"


def answer_lines(answer, predicates, functions, atoms):
    told = []
    while answer:
        literal, answer = shown(answer, predicates, functions)
        told.append(literal)
    disjuncts = [" & ".join(told[i:i + atoms]) for i in range(0, len(told), atoms)]
    return disjuncts[:1] + ["or " + d for d in disjuncts[1:]]


def tree(words):
    """The first term or literal of some words as (its word, its arguments), and the rest."""
    w, rest, arguments = words[0], words[1:], []
    for _ in range(0 if w >> 30 == 0 else w >> 12 & 7):
        argument, rest = tree(rest)
        arguments.append(argument)
    return (w, arguments), rest


def trees(words):
    told = []
    while words:
        first, words = tree(words)
        told.append(first)
    return told


def met(asked, given, values):
    """What each variable of a question's term stands for in a disjunct's, by first use."""
    if asked[0] >> 30 == 0:
        values.setdefault(asked[0], given)
    for one, other in zip(asked[1], given[1]) if asked[0] >> 30 else []:
        met(one, other, values)


def term(given, functions):
    w, arguments = given
    if w >> 30 == 0:
        return f"X{w & 1023}"
    return functions[w & 4095] + (f"({','.join(term(a, functions) for a in arguments)})" if arguments else "")


def tuple_line(path, question, answer, functions):
    """The answers line: what the question's variables stand for in each disjunct."""
    asked, given, told = trees(question), trees(answer), []
    for at in range(0, len(given), len(asked)):
        values = {}
        for one, other in zip(asked, given[at:at + len(asked)]):
            met(one, other, values)
        told.append("[" + ",".join(term(v, functions) for v in values.values()) + "]")
    if told[0] == "[]":
        return []
    return [f"% SZS answers Tuple [{told[0] if len(told) == 1 else '(' + '|'.join(told) + ')'}|_] for {path}"]


def behind(steps, clauses):
    copies = {len(clauses) - 1: 1}
    for step in steps:
        if step >> 30 == 1:
            copies[step & 511] = copies.get(step & 511, 0) + 1
    return ["Clauses behind it, and how often each was used:"] + [f"  {clauses[number]} {copies[number]}" for number in sorted(copies)]


def expected(path):
    text, file = question_file(path)
    told, (steps, answer) = fields(calls(f"smallest {LIMIT} {BUDGET} 16384 199 4096 / {hexed(file)}"))
    if told["status"] == 10:
        return (f"None up to {LIMIT}: no proof uses so few clauses; it looked everywhere, in {told['tries']} tries.\n"
                "32 is the largest limit. Add the clause that is missing, or ask for less.\n"
                f"% SZS status GaveUp for {path}\n")
    if told["status"] == 11:
        raise SystemExit(f"{path}: the example runs out")
    predicates, functions, clauses, atoms = names(text)
    lines, disjuncts = [], answer_lines(answer, predicates, functions, atoms)
    cost = f" (bound {told['bound']}, tries {told['tries']})"
    lines.append("Found: a definite answer" + cost if len(disjuncts) == 1 else f"Found: an answer with {len(disjuncts)} alternatives, not definite" + cost)
    lines += disjuncts + behind(steps, clauses)
    lines.append(f"% SZS status Unsatisfiable for {path}")
    lines += tuple_line(path, clause_words(file)[-1], answer, functions)
    return "\n".join(lines) + "\n"


def keep(kept, text):
    if "--check" not in sys.argv:
        open(kept, "w").write(text)
    elif open(kept).read() != text:
        raise SystemExit(f"{kept} differs from what is worked out")


ENDED = {"definite": "found, a definite answer", "indefinite": "found, not definite", 10: "none within the limit", 11: "ran out, nothing is known yet",
         16: "found, an answer too long to be shown"}
SZS = {10: "GaveUp", 11: "ResourceOut"}

# of each question that is refused, by its name: what is said
QUESTIONS_REFUSED = {
    "not_denied": """examples/matinee.questions:13: the question not_denied has a literal without `~`: all its literals must be denied
% SZS status InputError for examples/matinee.questions:13
""",
    "slip": """examples/matinee.questions:14:49: the text goes wrong here
  , negated_conjecture, ~ at(hamlet, may3 Time)).
                                          ^
expected arguments in parentheses, `,` or `)`
% SZS status InputError for examples/matinee.questions:14
""",
    "a_bill": """examples/matinee.questions:15: this clause is no question: its role is not negated_conjecture
% SZS status InputError for examples/matinee.questions:15
""",
}


def season(name):
    """The season report: each clause of NAME.questions in the place of the question of NAME.p."""
    table, questions = f"examples/{name}.p", f"examples/{name}.questions"
    stated = re.sub(r"cnf\s*\(\s*\w+\s*,\s*negated_conjecture\s*,[^.]*\.", "", open(table).read())
    text, counts, tries, lines = open(questions).read(), {}, 0, ""
    for found in re.finditer(r"cnf\s*\(\s*(\w+)[^.]*\.", re.sub(r"%[^\n]*", lambda m: " " * len(m.group()), text)):
        asked, line = found.group(1), text[:found.start(1)].count("\n") + 1
        if asked in QUESTIONS_REFUSED:
            counts["refused"] = counts.get("refused", 0) + 1
            lines += QUESTIONS_REFUSED[asked]
            continue
        read, (file,) = fields(calls(f"tptp-in 16000 / {(stated + found.group()).encode().hex().upper()}"))
        assert read["status"] == 0, asked
        told = fields(calls(f"smallest {LIMIT} {BUDGET} 16384 199 4096 / {' '.join(f'{w:08X}' for w in file)}"))[0]
        result = told["status"] or ("definite" if told["disjuncts"] == 1 else "indefinite")
        counts[result], tries = counts.get(result, 0) + 1, tries + told["tries"]
        lines += f"{questions}:{line}: {asked}: {ENDED[result]} (tries {told['tries']})\n% SZS status {SZS.get(result, 'Unsatisfiable')} for {asked}\n"
    return lines + f"""Season report of {table}, a question may use {LIMIT} clauses and {BUDGET} tries:
  found, a definite answer: {counts.get('definite', 0)}
  found, not definite: {counts.get('indefinite', 0)}
  none within the limit: {counts.get(10, 0)}
  ran out: {counts.get(11, 0)}
  answer too long to be shown: {counts.get(16, 0)}
  refused: {counts.get('refused', 0)}
  tries in all: {tries}
"""


def desk():
    """What the desk says of the records, for every day and house that has one and for one that has none."""
    records = [line.split() for line in re.sub(r"%[^\n]*", "", open("examples/desk.records").read()).split("\n") if line.strip()]
    asked = " ".join(f"{day}:{house}:{ {'matinee': 'm', 'evening': 'e', 'either': 'x'}[slot] }" for day, house, slot in records)
    said = {(1, 0, 0): "matinee", (0, 1, 0): "evening", (1, 1, 0): "matinee and evening, two events",
            (0, 0, 1): "matinee or evening, the bill leaves it open", (0, 0, 0): "not recorded"}
    lines = ""
    for day, house in sorted({(int(r[0]), int(r[1])) for r in records}) + [(95, 17)]:
        told = fields(calls(f"desk 2000 2000 2000 {day} {house} / {asked}"))[0]
        assert told["status"] == 0
        lines += f"Day {day}, house {house}: {said[told['matinee'], told['evening'], told['either']]}\n"
    return lines


os.makedirs("examples/expected", exist_ok=True)
for entry in sorted(os.listdir("examples")):
    name, _, kind = entry.rpartition(".")
    if kind == "p":
        keep(f"examples/expected/{name}.out", REFUSALS.get(name) or expected(f"examples/{entry}"))
    if kind == "questions":
        keep(f"examples/expected/{name}.season", season(name))
keep("examples/expected/desk.reports", desk())
for entry in sorted(os.listdir("examples/proofs")):
    name = entry[:-len(".proof")]
    if name in REFUSALS:
        keep(f"examples/expected/{name}.check", REFUSALS[name])
        continue
    offered = Offered(f"examples/{name.split('-')[0]}.p", f"examples/proofs/{entry}")
    keep(f"examples/expected/{name}.check", offered.checked())
    if not offered.told["status"]:
        keep(f"examples/expected/{name}.dot", offered.drawn())
for picture in ("case1", "knights"):
    keep(f"docs/pictures/{picture}.dot", open(f"examples/expected/{picture}-found.dot").read())
