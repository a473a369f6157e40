"""The ask call by core queries, and apart from it the direct meaning of a text."""
import operator

from core import And, Article, Category, Existence, InNamespace, Link, Or, Subquery, Value, every_node
from query import reference_core
from reading import Categories, Exists, Identifiers, Namespace, Query, read_query
from values import read_reference, read_value

# The core semantics.

CORE_COMPARATORS = {'=': operator.eq, '!=': operator.ne, '>': operator.gt, '<': operator.lt}


def has_mismatch(core, register):
    """Whether a page holds, under a property that the query names, another kind than the query asks of."""
    nodes = [node for node in every_node(core) if isinstance(node, (Value, Subquery, Link))]
    named = {(node.prop, node.constant[0] if isinstance(node, Value) else b'page') for node in nodes}
    return any(kind != wanted for page in register.pages for prop, wanted in named for kind, _ in page.values.get(prop, []))


def selected(core, register, subqueries=None, inside=0):
    """The pages of the register, as (namespace, name), that a core query selects.

    `subqueries`, if given, gets (how many others it is inside, what it selects) for each subquery."""
    if isinstance(core, (And, Or)):
        left, right = (selected(side, register, subqueries, inside) for side in core)
        return left & right if isinstance(core, And) else left | right
    inner = selected(core.query, register, subqueries, inside + 1) if isinstance(core, Subquery) else set()
    matches = test_of(core, inner)
    found = {page[:2] for page in register.pages if matches(page)}
    if subqueries is not None and isinstance(core, Subquery):
        subqueries.append((inside, found))
    return found


def meets(core, identifier):
    """Whether the (namespace, name) of a page, or of a link, is what the core query of a reference wants (definition 5.3.1)."""
    if isinstance(core, (And, Or)):
        sides = [meets(side, identifier) for side in core]
        return all(sides) if isinstance(core, And) else any(sides)
    if isinstance(core, InNamespace):
        return core.name == identifier[0]
    return CORE_COMPARATORS[core.comparator](identifier[1], core.name)


def test_of(selector, inner):
    """What a selector asks of a page. `inner` has the pages that the query inside a subquery selects."""
    if isinstance(selector, Category):
        return lambda page: selector.name in page.categories
    if isinstance(selector, (InNamespace, Article)):
        return lambda page: meets(selector, page[:2])
    if isinstance(selector, Existence):
        return lambda page: selector.prop in page.values
    if isinstance(selector, Subquery):
        return lambda page: any(value in inner for _, value in page.values.get(selector.prop, []))
    if isinstance(selector, Link):
        wanted = reference_core(selector.comparator, selector.reference)
        return lambda page: any(meets(wanted, link) for _, link in page.values.get(selector.prop, []))
    stands = CORE_COMPARATORS[selector.comparator]
    return lambda page: any(stands(value, selector.constant[1]) for _, value in page.values.get(selector.prop, []))


def ask(core, register):
    """(0, one mark a page) or (the refusal, None)."""
    if core is None or register is None:
        return (21 if core is None else 22), None
    if has_mismatch(core, register):
        return 23, None
    found = selected(core, register)
    return 0, [int((page.namespace, page.name) in found) for page in register.pages]


# The direct meaning, page by page.

STANDS = {
    b'': operator.eq,
    b'!': operator.ne,
    b'>': operator.ge,
    b'>>': operator.gt,
    b'<': operator.le,
    b'<<': operator.lt,
}


def refers(comparator, reference, identifier):
    """How a page's identifier, or a link, stands to a reference."""
    namespace, name = reference
    if not STANDS[comparator](identifier[1], name):
        return False
    if namespace is None:
        return comparator != b'' or identifier[0] == b''
    return comparator == b'!' or identifier[0] == namespace


class Direct:
    def __init__(self, register):
        self.register = register
        self.known = {}  # what a part of a chain asks of a page, found once

    def query(self, query, page):
        return any(all(self.term(term, page) for term in terms) for terms in query.conjunctions)

    def term(self, term, page):
        if isinstance(term, Query):
            return self.query(term, page)
        if isinstance(term, Categories):
            return any(name in page.categories for name in term.names)
        if isinstance(term, Identifiers):
            return any(self.identifier(selector, page) for selector in term.selectors)
        return self.chain(term, 0, page)

    def identifier(self, selector, page):
        if isinstance(selector, Namespace):
            return page.namespace == selector.name
        return refers(selector.comparator, selector.reference, page[:2])

    def chain(self, body, start, page):
        """What the names of the head from `start` on, with the alternatives, ask of the page."""
        key = id(body), start, page.namespace, page.name
        if key not in self.known:
            name, links = body.head[start], self.links(body.head[start], page)
            if start + 1 < len(body.head):
                answer = any(self.chain(body, start + 1, link) for link in links)
            else:
                answer = any(self.alternative(name, one, page, links) for one in body.alternatives)
            self.known[key] = answer
        return self.known[key]

    def links(self, name, page):
        """The pages of the register that the page links to under a page property."""
        held = page.values.get(name, [])
        places = [self.register.places.get(value) for kind, value in held if kind == b'page']
        return [self.register.pages[place] for place in places if place is not None]

    def alternative(self, name, one, page, links):
        kind, held = self.register.kinds.get(name), page.values.get(name, [])
        if isinstance(one, Exists):
            return bool(held)
        if isinstance(one, Query):
            return any(self.query(one, link) for link in links)
        if kind == b'page':
            reference = read_reference(one.text)
            return reference is not None and any(refers(one.comparator, reference, link) for _, link in held)
        wanted = read_value(kind, one.text)
        return wanted is not None and any(STANDS[one.comparator](value, wanted[1]) for _, value in held)


def direct(text, register):
    """One mark a page, or None where the text is refused with 12 to 16 or there is no register."""
    number, tree = read_query(text)
    if number or register is None:
        return None
    meaning = Direct(register)
    return [int(meaning.query(tree, page)) for page in register.pages]
