"""Question files made of words, from document 01, "Words of the question file"."""


def fnv1a(words):
    h = 0x811C9DC5
    for word in words:
        for byte in word.to_bytes(4, "little"):
            h = (h ^ byte) * 0x01000193 & 0xFFFFFFFF
    return h


class Clause:
    """Literals are (sign, predicate, terms); a term is a variable's name or (function, terms...)."""

    def __init__(self, *literals):
        self.names, words = [], []
        for sign, predicate, *terms in literals:
            words.append(0x80000000 | (sign == "~") << 15 | len(terms) << 12 | predicate)
            for term in terms:
                self.put(term, words)
        assert len(self.names) <= 16 and len(words) <= 255 and len(literals) <= 7, (len(self.names), len(words))
        self.words = [0xC0000000 | len(words) << 8 | len(self.names) << 3 | len(literals), *words]

    def put(self, term, words):
        if isinstance(term, str):
            if term not in self.names:
                self.names.append(term)
            words.append(self.names.index(term))
            return
        words.append(0x40000000 | (len(term) - 1) << 12 | term[0])
        for part in term[1:]:
            self.put(part, words)


def file_of(clauses):
    body = [word for clause in clauses for word in clause.words]
    return [*body, len(body) - len(clauses[-1].words), len(clauses), fnv1a(body), len(body)]


def extension(clause, literal=0):
    return 0x40000000 | literal << 9 | clause


def tower(function, height, term):
    for _ in range(height):
        term = (function, term)
    return term
