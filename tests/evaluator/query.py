"""The query call and the fit call: a text, or a tree that was read, and a register to a core query, or a number."""
from functools import reduce

from core import And, Article, Category, Existence, InNamespace, Link, Or, Subquery, Value, nodes
from reading import Categories, Exists, Identifiers, Namespace, Property, Query, read_query
from values import read_reference, read_value

PLAIN = {b'': '=', b'!': '!=', b'>>': '>', b'<<': '<'}
OR_EQUAL = {b'>': '>', b'<': '<'}


def properties(query):
    """All property bodies of a tree, those of subqueries too."""
    found = []
    for term in (term for conjunction in query.conjunctions for term in conjunction):
        inner = [term] if isinstance(term, Query) else []
        if isinstance(term, Property):
            found.append(term)
            inner = [one for one in term.alternatives if isinstance(one, Query)]
        for query_inside in inner:
            found += properties(query_inside)
    return found


def fits(body, kinds):
    """No piece unfit for its kind, no subquery on and no chain through a non-page property."""
    *through, last = [kinds[name] for name in body.head]
    fit = all(kind == b'page' for kind in through)
    for one in body.alternatives:
        if isinstance(one, Query):
            fit = fit and last == b'page'
        elif not isinstance(one, Exists):
            fit = fit and read_value(last, one.text) is not None
    return fit


def joined(make, cores):
    """Grouped from the left."""
    return reduce(make, cores)


def compared(comparator, select):
    """One selector, or strict OR equal."""
    if comparator in OR_EQUAL:
        return Or(select(OR_EQUAL[comparator]), select('='))
    return select(PLAIN[comparator])


def reference_core(comparator, reference):
    namespace, name = reference
    article = compared(comparator, lambda core: Article(core, name))
    if namespace is None:
        return And(InNamespace(b''), article) if comparator == b'' else article
    return article if comparator == b'!' else And(InNamespace(namespace), article)


def identifier_core(selector):
    if isinstance(selector, Namespace):
        return InNamespace(selector.name)
    return reference_core(selector.comparator, selector.reference)


def alternative_core(prop, one, kinds):
    if isinstance(one, Exists):
        return Existence(prop)
    if isinstance(one, Query):
        return Subquery(prop, query_core(one, kinds))
    if kinds[prop] == b'page':
        return Link(prop, one.comparator, read_reference(one.text))
    constant = read_value(kinds[prop], one.text)
    return compared(one.comparator, lambda core: Value(prop, core, constant))


def property_core(body, kinds):
    """The last name with the alternatives, inside one subquery for each name before it."""
    *through, last = body.head
    core = joined(Or, [alternative_core(last, one, kinds) for one in body.alternatives])
    for name in reversed(through):
        core = Subquery(name, core)
    return core


def term_core(term, kinds):
    if isinstance(term, Query):
        return query_core(term, kinds)
    if isinstance(term, Categories):
        return joined(Or, [Category(name) for name in term.names])
    if isinstance(term, Identifiers):
        return joined(Or, [identifier_core(selector) for selector in term.selectors])
    return property_core(term, kinds)


def query_core(query, kinds):
    conjunctions = [[term_core(term, kinds) for term in terms] for terms in query.conjunctions]
    return joined(Or, [joined(And, cores) for cores in conjunctions])


def fitted(tree, register):
    """(0, the core query) or (17, 18 or 19, None)."""
    bodies = properties(tree)
    if any(name not in register.kinds for body in bodies for name in body.head):
        return 17, None
    if not all(fits(body, register.kinds) for body in bodies):
        return 18, None
    core = query_core(tree, register.kinds)
    return (0, core) if nodes(core) <= 256 else (19, None)


def query_call(register, text):
    """(0, the core query) or (the lowest number whose condition holds, None)."""
    if register is None:
        return 11, None
    number, tree = read_query(text)
    return (number, None) if number else fitted(tree, register)


def fit_call(tree, register):
    """The same of a tree, which is None where its bytes are the form of no text that is read."""
    if register is None or tree is None:
        return (11 if register is None else 34), None
    return fitted(tree, register)
