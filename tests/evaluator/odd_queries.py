"""Held queries with links or numbers that are laid by hand: (label, the core query that the bytes hold or None, the bytes)."""
from accents import held_names
from core import And, Existence, Link, Subquery, Value
from decimals import CODES
from query_form import HEAP, MOST_HEAP, NODES, two

AND, EXISTENCE, SUBQUERY, VALUE, LINK = 0, 4, 5, 7, 8
NUMBER = 1  # the kind of a constant
COMPARATORS = b'', b'!', b'>>', b'<<', b'>', b'<'  # by their codes
HEAP_END = b'PTD1'


def row(tag, code=0, mark=0, first=(0, 0), second=(0, 0), third=0, number=0):
    places = b''.join(map(two, (*first, *second)))
    return bytes([tag, code, mark, third]) + places + number.to_bytes(8, 'little')


def laid(rows, heap, count=None, end=b''):
    """The rows, and the names; other bytes are 0, but for `end`, which stands at the end of the heap."""
    nodes = b''.join(rows).ljust(HEAP - NODES, b'\0')
    return two(len(rows) if count is None else count) + nodes + heap.ljust(MOST_HEAP - len(end), b'\0') + end


def link(prop, namespace, name, code=0):
    """A link as it is written; the namespace is None where none is."""
    before = prop + (namespace or b'')
    mark = 0 if namespace is None else len(namespace) + 1
    return laid([row(LINK, code, mark, (0, len(before)), (len(before), len(name)))], before + name)


def number_query(comparator, code):
    """One value comparison, of the property N with the number of a code."""
    return laid([row(VALUE, comparator, NUMBER, first=(0, 1), number=code)], b'N')


def numbers():
    """Each comparator with each code of a number, and with others."""
    for code, is_number in CODES:
        for at, comparator in enumerate(('=', '!=', '>', '<')):
            core = Value(b'N', comparator, (b'number', code - 10 ** 18)) if is_number else None
            yield f'{comparator} {code}', core, number_query(at, code)


def links():
    """Each comparator, with no namespace, with the empty one and with another."""
    for namespace in (None, b'', b'Talk'):
        for code, comparator in enumerate(COMPARATORS):
            yield f'{comparator} with {namespace}', Link(b'P', comparator, (namespace, b'D1')), link(b'P', namespace, b'D1', code)
        yield from ((f'comparator {code} with {namespace}', None, link(b'P', namespace, b'D1', code)) for code in (6, 7, 255))


def written():
    """What a text gives, or would if it kept the rules."""
    yield from links()
    yield from numbers()


def marks():
    """Where the mark parts the first place: property PTa, namespace lk and so on."""
    for mark in range(256):
        held = laid([row(LINK, 0, mark, (0, 5), (5, 2))], b'PTalkD1')
        parted = b'PTalk'[:6 - mark], b'PTalk'[6 - mark:]
        core = Link(b'PTalk', b'', (None, b'D1')) if mark == 0 else Link(parted[0], b'', (parted[1], b'D1')) if mark < 6 else None
        yield f'mark {mark}', core, held
    for mark, prop in ((0, b'\xc3\xa4'), (1, b'\xc3\xa4'), (2, None)):
        core = prop and Link(prop, b'', (b'' if mark else None, b'D1'))
        yield f'a letter parted by {mark}', core, laid([row(LINK, 0, mark, (0, 2), (2, 2))], b'\xc3\xa4D1')


def names():
    """Names that keep their rules or break them, in each place of a link."""
    good, bad = (b'a b', b'a.b', b'n' * 64), (b'', b'a ', b' a', b'+', b'!a', b'~a', b'a:b', b'a_b', b'a"', b'n' * 65)
    for name, kept in (*((name, name in good) for name in good + bad), *held_names()):
        is_prop, is_namespace = kept and b'.' not in name, kept or name == b''
        for is_kept, prop, *reference in ((is_prop, name, None, b'D1'), (is_prop, name, b'T', b'D1'), (is_namespace, b'P', name, b'D1'),
                                          (kept, b'P', None, name), (kept, b'P', b'T', name)):
            yield f'{prop}, {reference}', Link(prop, b'!', (*reference,)) if is_kept else None, link(prop, *reference, code=1)


def places():
    """Names that lie elsewhere, and bytes that a link does not use: it is read all the same. What is behind the heap is cut off."""
    whole, start, last = (b'P', b'T', b'D1'), MOST_HEAP - len(HEAP_END), MOST_HEAP - 1
    for label, parts, mark, first, second in (
            ('the end of the heap', whole, 2, (start, 2), (start + 2, 2)),
            ('a namespace at the end', (b'P', b'TD1', b'P'), 4, (start, 4), (start, 1)),
            ('an article cut off', (b'P', b'T', b'1'), 2, (0, 2), (last, 2)),
            ('a namespace cut off', (b'1', b'', b'D1'), 5, (last, 5), (2, 2)),
            ('a property cut off', (b'1', None, b'D1'), 0, (last, 9), (2, 2)),
            ('one name twice', (b'P', None, b'P'), 0, (0, 1), (0, 1)),
            ('the article before the property', (b'D1', None, b'T'), 0, (2, 2), (1, 1)),
            ('a property behind the heap', None, 0, (MOST_HEAP, 1), (2, 2)),
            ('an article behind the heap', None, 0, (0, 1), (MOST_HEAP, 2)),
            ('all far behind the heap', None, 0, (65535, 65535), (65535, 65535)),
            ('no property', None, 0, (0, 0), (2, 2)),
            ('no property before a namespace', None, 2, (1, 1), (2, 2)),
            ('no article', None, 2, (0, 2), (2, 0))):
        core = Link(parts[0], b'>', parts[1:]) if parts else None
        yield label, core, laid([row(LINK, 4, mark, first, second)], b'PTD1', end=HEAP_END)
    for label, tag, unused in (('byte 3', LINK, {'third': 1}), ('a number', LINK, {'number': 2 ** 63}), ('tag 9', 9, {})):
        yield label, Link(b'P', b'>', whole[1:]) if tag == LINK else None, laid([row(tag, 4, 2, (0, 2), (2, 2), **unused)], b'PTD1')


def joined():
    """A link takes nothing from the stack."""
    one, node = row(LINK, 0, 0, (0, 1), (1, 2)), Link(b'P', b'', (None, b'D1'))
    exists = row(EXISTENCE, first=(0, 1))
    for label, core, rows in (
            ('two links', None, [one, one]),
            ('two links joined', And(node, node), [one, one, row(AND)]),
            ('one link joined', None, [one, row(AND)]),
            ('a link over existence', None, [exists, one]),
            ('existence and a link', And(Existence(b'P'), node), [exists, one, row(AND)]),
            ('a link in a subquery', Subquery(b'P', node), [one, row(SUBQUERY, first=(0, 1))])):
        yield label, core, laid(rows, b'PD1')
    yield 'no node', None, laid([one], b'PD1', count=0)
    yield 'a node more', None, laid([one], b'PD1', count=2)


def odd_queries():
    for some in (written, marks, names, places, joined):
        yield from some()
    yield 'one byte short', None, link(b'P', b'T', b'D1')[:-1]
    yield 'one byte more', Link(b'P', b'', (b'T', b'D1')), link(b'P', b'T', b'D1') + b'x'
