"""Link nodes of every comparator, registers to ask them of, and held queries with as long names as there may be."""
import library  # finds the evaluator
from core import And, Link, Subquery
from query_form import TYPED, held_query
from register import page_of, register_of

LONGEST = Link(b'p' * 64, b'', (b'n' * 64, b'a' * 64))


def links():
    for comparator in TYPED:
        for namespace in (None, b'', b'T', b'U'):
            for name in (b'a', b'b', b'c'):
                yield Link(b'P', comparator, (namespace, name))


def registers():
    """Links in three namespaces, of which only some lead to pages; then other kinds, with a value and without; then no property."""
    targets = [(space, name) for space in (b'', b'T', b'U') for name in (b'a', b'b', b'bb')]
    pages = [page_of(b'', b'l%d' % number, [], [(b'P', (b'page', target))]) for number, target in enumerate(targets)]
    pages += [page_of(*target, [], [(b'P', (b'page', other)) for other in targets[::2]]) for target in targets[::3]]
    yield register_of([(b'P', b'page')], pages)
    for kind, value in ((b'string', b'a'), (b'number', 1), (b'boolean', True)):
        for values in ([(b'P', (kind, value))], []):
            yield register_of([(b'P', kind)], [page_of(b'', b'a', [], values)])
    yield register_of([], [page_of(b'', b'a', [], [])])


def longest():
    """(number of nodes, held query): 128 links and 127 ANDs below subqueries."""
    core = LONGEST
    for _ in range(127):
        core = And(core, LONGEST)
    for nodes in (256, 257):
        core = Subquery(LONGEST.prop, core)
        yield nodes, held_query(core)
