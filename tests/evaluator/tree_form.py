"""Held trees by docs/LAYOUT.md: `encode` writes the tree of a query that was read, `decode` reads one back or says None.

Bytes are a held tree where some text of a query has that tree. Groups leave no trace, so one text stands for all of them: the shortest. It is
spelled from the nodes, whatever they are; the bytes are held if that text is read and its tree is these bytes."""
from typing import NamedTuple

from reading import Categories, Exists, Identifiers, Namespace, Query, read_query

NODE, MOST_NODES, MOST_STRINGS, MOST_TEXT = 6, 681, 1024, 1024
NODES = 2  # where the nodes begin
STRINGS = NODES + NODE * MOST_NODES
SIZE = STRINGS + MOST_STRINGS
AND, OR, BAR, CATEGORY, NAMESPACE, BARE, QUALIFIED, EXISTS, VALUE, SUBQUERY, PROPERTY, LINK = range(12)
JOINS, NO_STRING = (AND, OR, BAR), (EXISTS, SUBQUERY)
COMPARATORS = [b'', b'!', b'>>', b'<<', b'>', b'<']


class Node(NamedTuple):
    tag: int
    first: bytes = b''  # a namespace
    second: bytes = b''  # a name or value
    comparator: bytes = b''
    size: int = 0  # of the second of two that are joined


# Writing.

def joined(tag, parts):
    """Lists of nodes, grouped from the left."""
    out = list(parts[0])
    for part in parts[1:]:
        out += [*part, Node(tag, size=len(part))]
    return out


def query_nodes(query):
    return joined(OR, [joined(AND, [term_nodes(term) for term in terms]) for terms in query.conjunctions])


def term_nodes(term):
    if isinstance(term, Query):
        return query_nodes(term)
    if isinstance(term, Categories):
        return joined(BAR, [[Node(CATEGORY, second=name)] for name in term.names])
    if isinstance(term, Identifiers):
        return joined(BAR, [[identifier_node(one)] for one in term.selectors])
    *through, last = term.head
    alternatives = joined(BAR, [alternative_nodes(one) for one in term.alternatives])
    return [*alternatives, Node(PROPERTY, second=last), *(Node(LINK, second=name) for name in reversed(through))]


def identifier_node(one):
    if isinstance(one, Namespace):
        return Node(NAMESPACE, first=one.name)
    namespace, name = one.reference
    return Node(BARE if namespace is None else QUALIFIED, namespace or b'', name, one.comparator)


def alternative_nodes(one):
    if isinstance(one, Query):
        return [*query_nodes(one), Node(SUBQUERY)]
    return [Node(EXISTS) if isinstance(one, Exists) else Node(VALUE, second=one.text, comparator=one.comparator)]


def two(number):
    return number.to_bytes(2, 'little')


def lay(nodes):
    """The bytes of nodes."""
    rows = strings = b''
    for node in nodes:
        number = node.size if node.tag in JOINS else 0 if node.tag in NO_STRING else len(strings)
        rows += bytes([node.tag, COMPARATORS.index(node.comparator)]) + two(number) + bytes([len(node.first), len(node.second)])
        strings += node.first + node.second
    return two(len(nodes)) + rows.ljust(STRINGS - NODES, b'\0') + strings.ljust(MOST_STRINGS, b'\0')


def encode(query):
    """The held tree of a query that was read."""
    return lay(query_nodes(query))


# Reading.

class NoTree(Exception):
    pass


class Part(NamedTuple):
    """What nodes spell: alternatives that wait for their property, the inside of a bracket, or terms side by side."""
    shape: str
    text: bytes


BRACKETS = {'categories': b'[[Category:%s]]', 'identifiers': b'[[%s]]', 'property': b'[[%s]]', 'and': b'%s', 'or': b'%s'}


def need(kept):
    if not kept:
        raise NoTree


def query_text(part, grouped=()):
    """The text of a query, in a group where its shape is one of these."""
    need(part.shape in BRACKETS)
    text = BRACKETS[part.shape] % part.text
    return b'<q>%s</q>' % text if part.shape in grouped else text


def join_parts(tag, left, right):
    if tag == BAR:
        need(left.shape == right.shape and left.shape in ('categories', 'identifiers', 'alternatives'))
        return Part(left.shape, left.text + b'||' + right.text)
    if tag == OR:
        return Part('or', query_text(left) + b'OR' + query_text(right, ('or',)))
    return Part('and', query_text(left, ('or',)) + query_text(right, ('and', 'or')))


def leaf(tag, comparator, first, second):
    if tag == CATEGORY:
        return Part('categories', second)
    if tag in (EXISTS, VALUE):
        return Part('alternatives', b'+' if tag == EXISTS else comparator + second)
    return Part('identifiers', {NAMESPACE: first + b':+', BARE: comparator + second, QUALIFIED: comparator + first + b':' + second}[tag])


def part_over(tag, name, below):
    """A subquery, a property or one name more of its chain, over what stands below it."""
    if tag == SUBQUERY:
        return Part('alternatives', b'<q>%s</q>' % query_text(below))
    need(below.shape == ('alternatives' if tag == PROPERTY else 'property'))
    return Part('property', name + (b'::' if tag == PROPERTY else b'.') + below.text)


def put_node(stack, row, strings):
    tag, start = row[0], int.from_bytes(row[2:4], 'little')
    need(tag <= LINK and row[1] < len(COMPARATORS) and len(stack) >= (2 if tag in JOINS else tag >= SUBQUERY))
    middle, end = start + row[4], start + row[4] + row[5]
    if tag in JOINS:
        right, left = stack.pop(), stack.pop()
        stack.append(join_parts(tag, left, right))
    elif tag >= SUBQUERY:
        stack.append(part_over(tag, strings[middle:end], stack.pop()))
    else:
        stack.append(leaf(tag, COMPARATORS[row[1]], strings[start:middle], strings[middle:end]))
    need(len(stack[-1].text) <= MOST_TEXT)


def spelling(held):
    """The shortest text that nodes may have."""
    count, stack = int.from_bytes(held[:2], 'little'), []
    need(len(held) == SIZE and 1 <= count <= MOST_NODES)
    for at in range(NODES, NODES + NODE * count, NODE):
        put_node(stack, held[at:at + NODE], held[STRINGS:])
    need(len(stack) == 1)
    return query_text(stack[0])


def decode(held):
    """The query that bytes hold, or None where they are the form of no text that is read. Only the first bytes count."""
    held = held[:SIZE]
    try:
        number, query = read_query(spelling(held))
    except NoTree:
        return None
    return query if number == 0 and encode(query) == held else None
