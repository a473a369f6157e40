"""Trees that some text has, and trees that miss it by one thing: `odd_trees()` yields (label, whether it is held, bytes)."""
from accents import held_names
from tree_form import (AND, BAR, BARE, CATEGORY, EXISTS, LINK, NAMESPACE, NODE, NODES, OR, PROPERTY, QUALIFIED, SIZE, STRINGS, SUBQUERY, VALUE,
                       Node, lay, spelling)

A = [Node(BARE, second=b'a')]
EXISTENCE = [Node(EXISTS)]


def join(tag, left, right):
    return [*left, *right, Node(tag, size=len(right))]


def bare(name, comparator=b''):
    return [Node(BARE, second=name, comparator=comparator)]


def qualified(namespace, name, comparator=b''):
    return [Node(QUALIFIED, namespace, name, comparator)]


def namespace_of(name):
    return [Node(NAMESPACE, first=name)]


def category(name):
    return [Node(CATEGORY, second=name)]


def value(text, comparator=b''):
    return [Node(VALUE, second=text, comparator=comparator)]


def chain(alternatives, *names):
    """The last name is the property that has the alternatives."""
    return [*alternatives, Node(PROPERTY, second=names[-1]), *(Node(LINK, second=name) for name in reversed(names[:-1]))]


def inner(query):
    return [*query, Node(SUBQUERY)]


def repeated(times, step, nodes):
    for _ in range(times):
        nodes = step(nodes)
    return nodes


def from_left(tag, parts):
    out = parts[0]
    for part in parts[1:]:
        out = join(tag, out, part)
    return out


def groupings():
    """What groups from the left, and what needs a group."""
    for tag, one in ((BAR, A), (BAR, category(b'a')), (BAR, value(b'1'))):
        for held, nodes in ((True, from_left(tag, [one, one, one])), (False, join(tag, one, join(tag, one, one)))):
            yield '|| of three', held, chain(nodes, b'P') if one[0].tag == VALUE else nodes
    for first in (AND, OR):
        for second in (AND, OR):
            yield 'three from the left', True, join(first, join(second, A, A), A)
            yield 'three from the right', True, join(first, A, join(second, A, A))
    yield '|| of a category and a name', False, join(BAR, category(b'a'), A)
    yield '|| of a name and a category', False, join(BAR, A, category(b'a'))
    yield '|| of an alternative and a query', False, chain(join(BAR, value(b'a'), A), b'P')
    yield '|| of properties', False, join(BAR, chain(EXISTENCE, b'P'), chain(EXISTENCE, b'P'))
    yield '|| of conjunctions', False, join(BAR, join(AND, A, A), A)


def shapes():
    """Nodes that leave no query, or that lack something."""
    yield 'an alternative alone', False, EXISTENCE
    yield 'a subquery alone', False, inner(A)
    yield 'a property of a query', False, chain(A, b'P')
    yield 'a subquery of alternatives', False, chain(inner(EXISTENCE), b'P')
    yield 'a link over a query', False, [*A, Node(LINK, second=b'P')]
    yield 'a link over alternatives', False, [*EXISTENCE, Node(LINK, second=b'P')]
    yield 'a property of a property', False, [*chain(EXISTENCE, b'P'), Node(PROPERTY, second=b'Q')]
    yield 'two queries', False, [*A, *A]
    yield 'no node', False, []
    for node in (Node(AND, size=1), Node(BAR, size=1), Node(SUBQUERY), Node(PROPERTY, second=b'P'), Node(LINK, second=b'P')):
        yield f'{node.tag} over nothing', False, [node]
    yield 'AND of an alternative', False, join(AND, A, EXISTENCE)
    for size in (0, 2):
        yield f'a second of {size}', False, [*A, *A, Node(AND, size=size)]


def first_pieces():
    """A first piece is read as a category where it says so with no comparator; later ones are not."""
    for one, held in ((qualified(b'Category', b'x'), False), (namespace_of(b'Category'), False), (qualified(b'Category', b'x', b'!'), True),
                      (bare(b'Category'), True), (qualified(b'category', b'x'), True), (qualified(b'', b'Category'), True)):
        yield f'{one[0]} first', held, one
        yield f'{one[0]} first of two', held, join(BAR, one, A)
        yield f'{one[0]} second', True, join(BAR, A, one)
        yield f'{one[0]} in a group', held, join(AND, A, join(AND, A, one))
    for piece in (b'+', b'!x', b'!', b'!+'):
        yield f'{piece} equal', False, chain(value(piece), b'P')
        yield f'{piece} second', False, chain(join(BAR, value(b'a'), value(piece)), b'P')
        for comparator in (b'!', b'>', b'<<'):
            yield f'{comparator} {piece}', True, chain(value(piece, comparator), b'P')
    for piece, held in ((b'++', True), (b'x!', True), (b'=', True), (b'Category:x', True), (b'a::b', True), (b'.', True), (b'~x', False)):
        yield f'{piece} as a value', held, chain(value(piece), b'P')


def names():
    for name, held in ((b'a ', False), (b' a', False), (b'a b', True), (b'', False), (b'a:b', False), (b'+', False), (b'!a', False), (b'a.b', True),
                       (b'a]', False), (b'a|', False), (b'a<', False), (b'a\n', False), (b'\xff', False), (b'n' * 64, True), (b'n' * 65, False), *held_names()):
        yield f'bare {name}', held, bare(name)
        yield f'>> {name}', held, bare(name, b'>>')
        yield f'category {name}', held, category(name)
        yield f'namespace {name}', held or name == b'', namespace_of(name)
        yield f'qualified by {name}', held or name == b'', qualified(name, b'x')
        yield f'qualified {name}', held, qualified(b'T', name)
        yield f'property {name}', held and b'.' not in name, chain(EXISTENCE, name)
        yield f'a chain from {name}', held and b'.' not in name, chain(EXISTENCE, name, b'P')
    for text, held in ((b'a ', False), (b' a', False), (b'', False), (b'a:b', True), (b'_', True), (b'x' * 64, True), (b'x' * 65, False), (b'"', False),
                       (b'a\xcc\x88', True), (b'\xcc\x88', True), (b'\xff', True)):
        yield f'value {text}', held, chain(value(text, b'<'), b'P')
    for count, held in ((1, True), (8, True), (9, False)):
        yield f'{count} names', held, chain(value(b'1'), *[b'P'] * count)


def depths():
    """Eight levels and nine, of each thing that needs a group."""
    ways = {
        'subqueries': lambda nodes: chain(inner(nodes), b'P'),
        'right of AND': lambda nodes: join(AND, A, nodes),
        'right of OR': lambda nodes: join(OR, A, nodes),
        'OR in AND': lambda nodes: join(AND, join(OR, A, nodes), A),
    }
    for label, step in ways.items():
        start = A if label == 'subqueries' else join(OR if label == 'right of OR' else AND, A, A)
        yield f'{label}: 8', True, repeated(8, step, start)
        yield f'{label}: 9', False, repeated(9, step, start)
    mixed = repeated(4, ways['right of AND'], join(AND, A, A))
    for below, held in ((4, True), (5, False)):
        yield f'{below} subqueries over 4 groups', held, repeated(below, ways['subqueries'], mixed)
    yield '20 from the left', True, repeated(20, lambda nodes: join(AND, nodes, A), A)


def filling(size):
    """A bracket of categories that is spelled in so many bytes."""
    room, parts = size - len(b'[[Category:]]'), []
    while room > 0:
        length = room if room <= 64 else min(64, room - 2 - 8)
        parts, room = [*parts, category(b'c' * length)], room - length - 2
    return from_left(BAR, parts)


def text_lengths():
    """1,024 bytes and 1,025, beside each thing that costs some."""
    things = (
        A, bare(b'a', b'<<'), qualified(b'T', b'a', b'!'), qualified(b'', b'a'), namespace_of(b'T'), join(BAR, A, namespace_of(b'')),
        chain(EXISTENCE, b'P'), chain(value(b'12', b'>'), b'P', b'Q', b'R s'), chain(join(BAR, EXISTENCE, inner(join(OR, A, A))), b'P'),
        join(AND, join(OR, A, A), join(AND, A, A)), join(OR, A, join(OR, A, join(AND, A, A))))
    for thing in things:
        for tag in (AND, OR):
            size = 100 + 1024 - len(spelling(lay(join(tag, thing, filling(100)))))
            for over in (-1, 0, 1, 2):
                yield f'{1024 + over} bytes', over <= 0, join(tag, thing, filling(size + over))


def many():
    """As many nodes as a text of 1,024 bytes has, and as many as a tree has room for."""
    most = from_left(BAR, [A] * 340)
    yield f'{len(most)} nodes', True, most
    for count, held in ((339, True), (340, False)):
        yield f'{count} alternatives', held, chain(from_left(BAR, [EXISTENCE] * count), b'P')
    yield f'{len(most) + 2} nodes', False, join(BAR, most, A)


def edited(nodes, *edits):
    held = bytearray(lay(nodes))
    for at, byte in edits:
        held[at] = byte
    return bytes(held)


def fields():
    """Bytes that a node does not use, strings that lie elsewhere, and what lies behind the last."""
    pair = join(AND, bare(b'ab'), category(b'cd'))
    second, third = NODES + NODE, NODES + 2 * NODE
    for label, edits in (('a comparator of a category', [(second + 1, 1)]), ('a comparator of AND', [(third + 1, 1)]), ('a namespace of AND', [(third + 4, 1)]),
                         ('a name of AND', [(third + 5, 1)]), ('a namespace of a category', [(second + 4, 1), (second + 5, 1)]),
                         ('a string that overlaps', [(second + 2, 1)]), ('a gap', [(second + 2, 3), (STRINGS + 3, 99), (STRINGS + 4, 100)]),
                         ('a byte behind the strings', [(STRINGS + 4, 1)]), ('a byte behind the nodes', [(third + NODE, 1)]),
                         ('the last byte of the nodes', [(STRINGS - 1, 1)]), ('the last byte', [(SIZE - 1, 1)]), ('a node more', [(0, 4)]), ('a node less', [(0, 2)]),
                         ('256 nodes more', [(1, 1)]), ('a comparator of 6', [(NODES + 1, 6)]), ('a tag of 12', [(NODES, 12)])):
        yield label, False, edited(pair, *edits)
    for label, row, nodes in (('existence', NODES, chain(EXISTENCE, b'P')), ('a subquery', second, chain(inner(A), b'P'))):
        yield label, True, lay(nodes)
        yield from ((f'byte {at} of {label}', False, edited(nodes, (row + at, 1))) for at in range(1, NODE))


def odd_trees():
    for some in (groupings, shapes, first_pieces, names, depths, text_lengths, many):
        yield from ((label, held, lay(nodes)) for label, held, nodes in some())
    yield from fields()
    yield 'all 255', False, b'\xff' * SIZE
    yield 'all 0', False, bytes(SIZE)
    yield 'one byte short', False, lay(A)[:-1]
    yield 'one byte more', True, lay(A) + b'x'
    yield 'no byte', False, b''
