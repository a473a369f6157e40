"""Another text of the same surface query: other groups, blanks, names typed in another way, and AND written or not."""
from reading import Categories, Exists, Identifiers, Namespace, Query
from respell import typed


class Respeller:
    """Takes a query that was read; `rng` chooses. More groups may be too deep, and more bytes too many."""

    def __init__(self, rng, groups):
        self.rng, self.groups = rng, groups  # how often a group is put where none is needed

    def blank(self):
        return self.rng.choice([b'', b'', b'', b' ', b'\n', b'  '])

    def spaced(self, *parts):
        return b''.join(self.blank() + part for part in parts) + self.blank()

    def grouped(self, text):
        return b'<q>' + self.spaced(text) + b'</q>'

    def maybe_grouped(self, text):
        return self.grouped(text) if self.rng.random() < self.groups else text

    def query(self, query):
        """Disjunctions group from the left, so what stands before an OR may be in a group."""
        text = b''
        for terms in query.conjunctions:
            one = self.conjunction(terms)
            text = self.maybe_grouped(text) + self.spaced(b'OR', one) if text else one
        return self.maybe_grouped(text)

    def conjunction(self, terms):
        text = b''
        for term in terms:
            one = self.term(term)
            text = self.maybe_grouped(text) + self.spaced(self.rng.choice([b'AND', b'']), one) if text else one
        return self.maybe_grouped(text)

    def term(self, term):
        if isinstance(term, Query):
            one = len(term.conjunctions) == 1 and len(term.conjunctions[0]) == 1
            text = self.query(term)
            return self.maybe_grouped(text) if one else self.grouped(text)
        return self.maybe_grouped(b'[[' + self.body(term) + b']]')

    def body(self, term):
        if isinstance(term, Categories):
            return self.spaced(b'Category', b':') + self.several([self.name(one) for one in term.names])
        if isinstance(term, Identifiers):
            return self.several([self.identifier(one) for one in term.selectors])
        return b'.'.join(self.spaced(self.name(one)) for one in term.head) + b'::' + self.several([self.alternative(one) for one in term.alternatives])

    def name(self, name):
        return typed(self.rng, name)

    def several(self, texts):
        return b'||'.join(map(self.spaced, texts))

    def identifier(self, one):
        if isinstance(one, Namespace):
            return self.spaced(self.name(one.name), b':', b'+')
        namespace, name = one.reference
        before = b'' if namespace is None else self.name(namespace) + self.blank() + b':' + self.blank()
        return one.comparator + self.blank() + before + self.name(name)

    def alternative(self, one):
        if isinstance(one, Query):
            return self.grouped(self.query(one))
        return b'+' if isinstance(one, Exists) else one.comparator + self.blank() + one.text


def respelled_query(rng, query):
    return Respeller(rng, rng.choice([0, 0.1, 0.5])).query(query)
