#!/usr/bin/env python3
"""Lists the places in src/ that docs/DESIGN-PASS.md speaks of, a line each: file, line, function or type, and what was seen.

    tools/places.py            how many of each kind
    tools/places.py KIND       the places of one kind

It reads the sources as text, so it finds too much rather than too little; the page says of each place what became of it.
"""
import collections
import functools
import pathlib
import re
import sys

ROOT = pathlib.Path(__file__).resolve().parent.parent
NUMBER = r'(?:u8|u16|u32|u64|usize)'
ITEM = re.compile(r'^(?:pub(?:\([a-z]+\))? )?(fn|enum|struct) ([A-Za-z_0-9]+)')


def code(line):
    return line.split('//')[0].rstrip()


class Item:
    """A function, an enum or a struct: its head, the clauses and the body."""

    def __init__(self, file, number, kind, name):
        self.file, self.number, self.kind, self.name = file, number, kind, name
        self.lines = []

    def place(self, what, ahead=0):
        return f'{self.file}:{self.number + ahead}: {self.name}: {what}'

    @property
    def text(self):
        return '\n'.join(self.lines)

    def split(self):
        head, clauses, body, state = [], [], [], 'head'
        for line in self.lines:
            if state == 'head' and re.match(r'\s*(requires|ensures|ghost)\b', line):
                state = 'clauses'
            if state != 'body' and line.strip() == '{':
                state = 'body'
            {'head': head, 'clauses': clauses, 'body': body}[state].append(line)
            if state == 'head' and line.endswith('{'):
                state = 'body'
        return head, clauses, body


@functools.cache
def everything():
    """The functions, enums and structs of all sources, methods among them, each with its lines up to the closing brace."""
    found = []
    for file in sorted(ROOT.glob('crates/*/src/**/*.rt')):
        item = None
        for number, line in enumerate(file.read_text().splitlines(), 1):
            line = code(line)
            head = ITEM.match(line.strip()) if len(line) - len(line.lstrip()) in (0, 4) else None
            if head and (item is None or not line.startswith('    ')):
                item = Item(str(file.relative_to(ROOT)), number, head.group(1), head.group(2))
                found.append(item)
            if item:
                item.lines.append(line)
            if line == '}':
                item = None
    return found


def functions():
    return [i for i in everything() if i.kind == 'fn']


def payload_enums():
    """1: enums of two cases, of which one or both hold values"""
    for i in everything():
        if i.kind != 'enum':
            continue
        cases = [l.strip() for l in i.lines[1:] if re.match(r'    [A-Z]', l)]
        if len(cases) == 2 and any('(' in c or '{' in c for c in cases):
            yield i.place(' | '.join(c.rstrip(',') for c in cases))


def flag_structs():
    """1: structs with a bool or a status beside values"""
    for i in everything():
        if i.kind == 'struct' and len(i.lines) > 3:
            for k, line in enumerate(i.lines):
                if re.search(r': bool,|status: u32', line):
                    yield i.place(line.strip(), k)


def coded_results():
    """1: functions that give two or more bare numbers, as codes for kinds, for refusals or for none"""
    for i in functions():
        head, _, body = i.split()
        if not re.search(r'-> ' + NUMBER + r'\b', ' '.join(head)):
            continue
        bare = re.findall(r'(?:return |=> |^    )(\d+|[A-Z_]{3,}|usize::MAX|words\.len\(\))(?:;|,|$)', '\n'.join(body), re.M)
        if len(bare) >= 2:
            yield i.place(' '.join(bare))


def coded_refusals():
    """1: a refusal made of a number written out"""
    for i in functions():
        for k, line in enumerate(i.lines):
            if re.search(r'\b(refused|refuse|refusal|without|failed)\((\d+|[a-z_:]*[A-Z_]{3,})', line):
                yield i.place(line.strip(), k)


def normal(item):
    head, clauses, body = item.split()
    text = '\n'.join(head + body)
    text = re.sub(r'\b' + NUMBER + r'\b', 'T', text)
    text = re.sub(r'b?\'[^\']*\'|b?"[^"]*"|\b\d[\d_x a-fA-F]*\b', 'N', text)
    names = {}
    keep = {'fn', 'pub', 'crate', 'let', 'mut', 'if', 'else', 'return', 'while', 'for', 'in', 'match', 'as', 'true', 'false', 'T', 'N', 'loop', 'len', 'continue', 'break'}

    def name(m):
        word = m.group(0)
        return word if word in keep else names.setdefault(word, f'v{len(names)}')

    return re.sub(r'\s+', ' ', re.sub(r'\b[A-Za-z_][A-Za-z_0-9]*\b', name, text.replace('pub(crate) ', '').replace('pub ', '')))


def alike(form):
    """The functions whose form another has too, with those that have it; what has no form is left out."""
    groups = collections.defaultdict(list)
    for i in functions():
        if '/exported' not in i.file and form(i):
            groups[form(i)].append(i)
    for group in groups.values():
        for i in group:
            if len(group) > 1:
                yield i.place('as ' + ', '.join(f'{o.file.split("/")[1]}::{o.name}' for o in group if o is not i))


def twins():
    """2: functions that differ only in names, types and numbers (bodies of three lines or more)"""
    return alike(lambda i: normal(i) if len(i.split()[2]) >= 5 else None)


def typed(item):
    head, _, body = item.split()
    text = re.sub(r'\b' + NUMBER + r'\b', 'T', '\n'.join(head + body).replace(f' {item.name}(', ' F(', 1))
    return re.sub(r'b?"[^"]*"|b?\'[^\']*\'|\b\d[\d_]*\b', 'N', text).replace('pub(crate) ', '').replace('pub ', '')


def typed_twins():
    """2: functions of any length that differ only in a number type or a number, but for their own names"""
    return alike(typed)


def counted_loops():
    """3: while loops whose condition names a variable that the body moves by one"""
    for i in functions():
        for k, line in enumerate(i.lines):
            found = re.match(r'(\s*)while (.*?)\s*\{?$', line)
            if not found:
                continue
            indent = found.group(1)
            rest = []
            for below in i.lines[k + 1:]:
                if below == indent + '}':
                    break
                rest.append(below)
            condition = line + ' '.join(rest[:3] if not line.endswith('{') else [])
            moved = {m.group(1) for m in re.finditer(r'([a-z_.]+) [+-]= 1;', '\n'.join(rest))}
            if any(re.search(r'\b' + re.escape(v) + r'\b', condition) for v in moved):
                yield i.place(line.strip(), k)


def all_loops():
    """3: all while and loop loops"""
    for i in functions():
        for k, line in enumerate(i.lines):
            if re.match(r'\s*(while|loop)\b', line):
                yield i.place(line.strip(), k)


def by_hand():
    """4: functions that compare or convert by hand: a match or a row of ifs with nothing but values, or a same-named pair compared"""
    for i in functions():
        head, _, body = i.split()
        text = '\n'.join(body)
        arms = re.findall(r'=> (?:return )?(true|false|\d+|b?"[^"]*"|[A-Z][A-Za-z]*::[A-Z][A-Za-z]*)[,;]', text)
        if len(arms) >= 3:
            yield i.place(f'{len(arms)} arms that are values')
        elif len(re.findall(r'if [a-z_.]+ == [^{&|]+ \{\n\s+return (?:true|false|\d+|[A-Z][A-Za-z]*::[A-Z][A-Za-z]*(?:\([A-Za-z:]*\))?);', text)) >= 3:
            yield i.place('ifs that give values')
        elif re.match(r'fn (same|equal|least|most|min|max|is_same)', head[0].strip().replace('pub ', '').replace('(crate) ', '')):
            yield i.place('compares by hand')


def let_else_tests():
    """4: a let .. else on a case without values, where == would do"""
    for i in functions():
        for k, line in enumerate(i.lines):
            if re.search(r'let [A-Za-z]+::[A-Za-z]+ = [^;]* else \{', line):
                yield i.place(line.strip(), k)


def in_three(said):
    """What three or more functions of a crate say, with how many do."""
    users = collections.defaultdict(set)
    for i in functions():
        for what in said(i):
            users[(i.file.split('/')[1], what)].add(i.name)
    for (crate, what), names in sorted(users.items()):
        if len(names) >= 3:
            yield f'{crate}: {what}: {len(names)} functions'


def facts(item):
    for line in item.split()[1]:
        found = re.match(r'\s*requires(?: [a-z_]+)? \{ (.*) \}$', line)
        for fact in re.split(r' × ', found.group(1)) if found else []:
            while fact.startswith('(') and fact.endswith(')'):
                fact = fact[1:-1]
            yield fact


def repeated_facts():
    """5: a fact of a requires that stands in three or more functions"""
    return in_three(facts)


def pairs(item):
    inside = re.search(r'\((.*)\)', ' '.join(l.strip() for l in item.split()[0]))
    if not inside or '/exported' in item.file:
        return []
    given = [re.sub(r'&(?:mut )?', '&', p.strip()) for p in inside.group(1).split(',') if ':' in p]
    return [f'{a}, {b}' for a, b in zip(given, given[1:])]


def travelling():
    """5: pairs of parameters that stand side by side in three or more functions of a crate"""
    return in_three(pairs)


def fixed_buffers():
    """6: arrays of a fixed size in a function"""
    for i in functions():
        for k, line in enumerate(i.lines):
            if re.search(r'\[(0|false)(?:u8|u32|u64|usize)?; ', line):
                yield i.place(line.strip(), k)


def searches():
    """6: a list searched by hand: a loop that returns where an element equals something"""
    for i in functions():
        text = i.text
        if re.search(r'(while|for) [^{]*\{[^}]*?\n\s+if [^{]*(==|same|has)[^{]*\{\n\s+return', text):
            yield i.place('loop with a test and a return')


def steps():
    """7: rows of three or more arms or ifs, each of which calls another function"""
    for i in functions():
        body = '\n'.join(i.split()[2])
        arms = re.findall(r'=> (?:return )?[a-z_:]+\(', body) + re.findall(r'\{\n\s+return [a-z_:]+\([^\n]*\);\n\s+\}', body)
        if len(arms) >= 3:
            yield i.place(f'{len(arms)} calls to choose from')


def walked_proofs():
    """8: proofs that walk the code by hand, by crate"""
    counts = collections.Counter(f.relative_to(ROOT).parts[1] for f in ROOT.glob('crates/*/proofs/**/Proof.antt'))
    for crate, n in sorted(counts.items()):
        for _ in range(n):
            yield f'crates/{crate}/proofs'


KINDS = [payload_enums, flag_structs, coded_results, coded_refusals, twins, typed_twins, counted_loops, all_loops, by_hand, let_else_tests,
         repeated_facts, travelling, fixed_buffers, searches, steps, walked_proofs]


def main():
    if len(sys.argv) == 1:
        for kind in KINDS:
            print(f'{len(list(kind())):5} {kind.__name__}: {kind.__doc__}')
        return
    for kind in KINDS:
        if kind.__name__ == sys.argv[1]:
            print('\n'.join(kind()))
            return
    sys.exit(f'no such kind: {sys.argv[1]}')


main()
