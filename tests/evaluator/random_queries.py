"""Random query texts, most of them accepted for the register that they are drawn from, and selecting some of its pages."""
from random_registers import CATEGORIES, KNOWN, NAMES, NAMESPACES, damaged, plain_text
from respell import retyped, spelled
from values import read_value

STRAYS = 0.2  # how often a term is written for another page, or for none
QUERY_TOKENS = [b'[[', b']]', b'<q>', b'</q>', b'AND', b'OR', b'::', b'||', b'|', b':', b'.', b'>', b'>>', b'<',
                b'<<', b'!', b'+', b'~', b' ', b'\n', b'a', b'P', b'S', b'N', b'7', b'Category', b'T', b'\t', b']']
BLANKS = [b'', b'', b'', b' ', b'\n', b'  ']
FAULTY = {
    13: [b'[[a]', b'[[a|b]]', b'[[> >a]]', b'AND', b'<q></q>', b'[[S::a]b]]', b'[[a<b::c]]', b'[[S::<q>[[a]]</q>x]]'],
    14: [b'[[' + b'.'.join([b'P'] * 9) + b'::a]]', b'<q>' * 9 + b'[[a]]' + b'</q>' * 9, b'[[' + b'.' * 8 + b'::a]]'],
    15: [b'[[\xff]]', b'[[b\xcc\x81]]', b'[[Category:e\xcc\x81\xcc\x81]]', b'[[\xc2\x80:a]]', b'[[\xc1\xa1::+]]', b'[[Category:+]]', b'[[+]]', b'[[a_b]]', b'[[T:]]', b'[[!T:+]]', b'[[Category:C||>K]]', b'[[P..Q::a]]',
         b'[[!P::a]]', b'[[]]', b'[[a||b::c]]', b'[[Category:C||Category:K]]'],
    16: [b'[[S::~A]]', b'[[S::]]', b'[[S::! ]]', b'[[S::"]]', b'[[N::' + b'7' * 65 + b']]', b'[[P::a||]]'],
    17: [b'[[Z::1]]', b'[[P.Z::+]]', b'[[Z.P::a]]', b'[[P::<q>[[Z::+]]</q>]]'],
    18: [b'[[N::yes]]', b'[[N::1.]]', b'[[N::>.5]]', b'[[N::1.5||!1.2345]]', b'[[S.P::a]]', b'[[S::<q>[[a]]</q>]]', b'[[P::_]]',
         b'[[B::1.0]]', b'[[P::a||T:+]]'],
}


class Writer:
    """Writes queries of what the pages of a register hold: names, categories, values, and links, to its pages and to none.

    What is written for a page selects it, unless a term strays."""

    def __init__(self, rng, register):
        self.rng, self.register = rng, register

    def page(self):
        return self.rng.choice(self.register.pages)

    def blank(self):
        return self.rng.choice(BLANKS)

    def spaced(self, *parts):
        return b''.join(self.blank() + part for part in parts) + self.blank()

    def linked(self, value):
        """The page of the register that a value links to, if there is one."""
        place = self.register.places.get(value[1]) if value[0] == b'page' else None
        return None if place is None else self.register.pages[place]

    def walk(self, page, most):
        """The names of up to `most` links, one after the other, and the page that they lead to."""
        names = []
        while len(names) < most:
            links = [(prop, self.linked(value)) for prop, value in page.held]
            links = [(prop, to) for prop, to in links if to and to.held]
            if not links:
                break
            prop, page = self.rng.choice([one for one in links if any(self.linked(value) for _, value in one[1].held)] or links)
            names.append(prop)
        return names, page

    def chain(self, page):
        """Names of links to follow from the page, and a property and value of the page that they lead to."""
        names, page = self.walk(page, self.rng.choice([0, 0, 1, 1, 2, 4, 7]))
        return names, *self.rng.choice(page.held)

    def any_chain(self):
        """The same for no page."""
        kinds = self.register.kinds
        links, last = [prop for prop in kinds if kinds[prop] == b'page'], self.rng.choice([*kinds])
        names = [self.rng.choice(links) for _ in range(self.rng.choice([0, 0, 1, 1, 2, 7]))] if links else []
        return names, last, self.value(kinds[last])

    def query(self, page, depth, width):
        text = self.term(page, depth, width)
        for _ in range(self.rng.randint(0, width)):
            word = self.rng.choice([b'', b'', b'AND', b'OR'])
            page = self.page() if word == b'OR' else page
            text += self.spaced(word) + self.term(page, depth, width)
        return text

    def term(self, page, depth, width):
        way, strays = self.rng.random(), self.rng.random() < STRAYS
        page = self.page() if strays else page
        if way < 0.12 and depth:
            return b'<q>' + self.spaced(self.query(page, depth - 1, width // 2)) + b'</q>'
        if way < 0.23 and page.categories:
            names = self.several(self.rng.choice(page.categories), lambda: self.rng.choice(CATEGORIES))
            return b'[[' + self.spaced(b'Category', b':') + names + b']]'
        if way < 0.45 or not page.held:
            return b'[[' + self.several(self.identifier(page), lambda: self.identifier(self.page())) + b']]'
        return self.property(*(self.any_chain() if strays else self.chain(page)), depth, width)

    def several(self, one, another):
        """Alternatives, one of them the given."""
        pieces = [one] + [another() for _ in range(self.rng.choice([0, 0, 0, 1, 2]))]
        self.rng.shuffle(pieces)
        return b'||'.join(map(self.spaced, pieces))

    def identifier(self, page):
        if self.rng.random() < 0.15:
            return self.spaced(page.namespace, b':', b'+')
        return self.reference(page[:2])

    def reference(self, identifier):
        """One that a page or a link of that namespace and name meets."""
        namespace, article = identifier
        name = self.rng.choice([article, article, self.page().name, self.rng.choice(NAMES)])
        comparator = self.comparator(article, name)
        written = comparator == b'' or self.rng.random() < 0.5
        namespace = self.rng.choice([namespace, *NAMESPACES]) if comparator == b'!' else namespace
        return comparator + self.blank() + (spelled(self.rng, (b'page', (namespace, name))) if written else name)

    def comparator(self, one, other):
        """Some comparator by which the one stands to the other."""
        if one == other:
            return self.rng.choice([b'', b'', b'', b'>', b'<'])
        return self.rng.choice([b'!', b'>', b'>>', b'>>'] if one > other else [b'!', b'<', b'<<', b'<<'])

    def property(self, names, prop, value, depth, width):
        alternatives = self.several(self.alternative(value, depth, width), lambda: self.alternative(self.value(value[0]), depth, width))
        return b'[[' + b'.'.join(map(self.spaced, names + [prop])) + b'::' + alternatives + b']]'

    def value(self, kind):
        if kind != b'page':
            return read_value(kind, plain_text(self.rng, kind))
        return kind, self.rng.choice([self.page()[:2], self.page()[:2], self.rng.choice(KNOWN)])

    def alternative(self, value, depth, width):
        """One that the value meets."""
        kind, what = value
        page = self.linked(value)
        if self.rng.random() < 0.1:
            return b'+'
        if page and depth and self.rng.random() < 0.5:
            return b'<q>' + self.query(page, depth - 1, width // 2) + b'</q>'
        if kind == b'page':
            return self.reference(what)
        constant = self.rng.choice([value, self.value(kind), self.value(kind)])
        return self.comparator(what, constant[1]) + self.blank() + spelled(self.rng, constant)

    def nested(self):
        """Groups and subqueries in each other, some deeper than 8."""
        page, opened, closed = self.page(), b'', b''
        for _ in range(self.rng.choice([1, 3, 7, 8, 8, 9, 9, 20, 60])):
            names, page = self.walk(page, self.rng.choice([0, 1, 2]))
            opened += b'[[' + b'.'.join(names) + b'::<q>' if names else b'<q>'
            closed = (b'</q> ]]' if names else b'</q>') + closed
        return opened + self.term(page, 0, 0) + closed

    def counted(self):
        """Near 256 nodes."""
        names = [page.name for page in self.register.pages if page.namespace == b'' and len(page.name) < 5]
        name, namespace = self.rng.choice(names or [b'a']), self.page().namespace
        more = self.rng.choice([-1, 0, 0, 1])
        pieces = (name, 64), (b'!%s' % name, 128), (b'>%s' % name, 64), (b'%s:+' % namespace, 128), (b'P::<q>[[%s]]</q>' % name, 51)
        texts = [b'[[%s]]' % piece * (count + more) for piece, count in pieces]
        text = self.rng.choice([*texts, b'[[P::%s]]' % b'||'.join([name] * (128 + more))])
        return text + self.rng.choice([b'', b'[[P::c]]', b'[[!b]]', b'[[S::x]]', b'[[P.Q::a]]', b' OR [[!a]]', b' OR [[P::%s]]' % name])


def too_deep(rng):
    return rng.choice([b'<q>' * 145 + b'[[a]]' + b'</q>' * 145, b'<q>' * rng.randint(2, 341)])


def query_text(rng, register):
    """A query of what the pages of a register hold, of which there is at least one, or a text that is refused."""
    writer, way = Writer(rng, register), rng.random()
    text = writer.query(writer.page(), rng.choice([1, 2, 4, 8]), rng.choice([0, 1, 2, 3, 4, 8]))
    text = text if rng.random() < 0.5 else retyped(rng, text)
    if way < 0.62:
        return text
    if way < 0.74:
        faulty = rng.choice(FAULTY[rng.choice(sorted(FAULTY))])
        return rng.choice([faulty, text + faulty, faulty + b' ' + text, text + b' OR ' + faulty, text + faulty + text])
    if way < 0.86:
        return damaged(rng, text, QUERY_TOKENS)
    if way < 0.91:
        return rng.choice([writer.nested(), writer.nested(), too_deep(rng)])
    if way < 0.95:
        return writer.counted()
    if way < 0.97:
        short = text[:1000] if rng.random() < 0.2 else writer.query(writer.page(), 1, 2)
        return short + b' ' * (rng.choice([1023, 1024, 1024, 1025]) - len(short))
    return b''.join(rng.choice(QUERY_TOKENS) for _ in range(rng.randint(0, 40)))
