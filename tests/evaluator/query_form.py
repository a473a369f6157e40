"""Held queries by docs/LAYOUT.md: written from a core query, and read back by the rules."""
from core import And, Article, Category, Existence, InNamespace, Link, Or, Subquery, Value
from values import KINDS, SCALARS, code_of, is_composed, is_name, is_namespace, is_property_name, is_value, scalar_of

NODE, MOST_NODES, MOST_HEAP = 20, 256, 24672
NODES = 2  # where the nodes begin
HEAP = NODES + NODE * MOST_NODES
SIZE = HEAP + MOST_HEAP
COMPARATORS = ['=', '!=', '>', '<']
TYPED = [b'', b'!', b'>>', b'<<', b'>', b'<']  # the comparators of links


def two(number):
    return number.to_bytes(2, 'little')


def postfix(core):
    if isinstance(core, (And, Or)):
        return postfix(core.left) + postfix(core.right) + [core]
    return (postfix(core.query) if isinstance(core, Subquery) else []) + [core]


class Heap:
    """Names and strings, each behind the one before it."""

    def __init__(self):
        self.content = b''

    def span(self, part):
        self.content += part
        return two(len(self.content) - len(part)) + two(len(part))


def node_bytes(node, heap):
    tag = [And, Or, Category, InNamespace, Existence, Subquery, Article, Value, Link].index(type(node))
    out = bytearray(NODE)
    out[0] = tag
    if tag in (2, 3):
        out[4:8] = heap.span(node.name)
    if tag in (4, 5, 7):
        out[4:8] = heap.span(node.prop)
    if tag in (6, 7):
        out[1] = COMPARATORS.index(node.comparator)
    if tag == 6:
        out[8:12] = heap.span(node.name)
    if tag == 7:
        kind, value = node.constant
        out[2] = KINDS.index(kind)
        if kind in SCALARS:
            out[12:20] = code_of(node.constant).to_bytes(8, 'little')
        else:
            out[8:12] = heap.span(value)
    if tag == 8:
        namespace, name = node.reference
        out[1] = TYPED.index(node.comparator)
        out[2] = 0 if namespace is None else len(namespace) + 1
        out[4:8] = heap.span(node.prop + (namespace or b''))
        out[8:12] = heap.span(name)
    return bytes(out)


def held_query(core):
    """The form of a core query. One of more than 256 nodes, which has none, is cut."""
    heap = Heap()
    nodes = [node_bytes(node, heap) for node in postfix(core)]
    return two(len(nodes)) + b''.join(nodes[:MOST_NODES]).ljust(HEAP - NODES, b'\0') + heap.content.ljust(MOST_HEAP, b'\0')[:MOST_HEAP]


def kept(rule, text):
    if not rule(text):
        raise ValueError
    return text


def kept_name(rule, text):
    return kept(is_composed, kept(rule, text))


def read_constant(slot, string):
    kind = KINDS[slot[2]]
    if kind == b'string':
        return kind, kept(is_value, string)
    constant = scalar_of(kind, int.from_bytes(slot[12:20], 'little'))
    if constant is None:
        raise ValueError
    return constant


def read_link(slot, first, second):
    """A link; where byte 2 is not 0 the last bytes of the first string, one fewer than it says, are its namespace."""
    comparator, name = TYPED[slot[1]], kept_name(is_name, second)
    if slot[2] == 0:
        return Link(kept_name(is_property_name, first), comparator, (None, name))
    end = max(0, int.from_bytes(slot[6:8], 'little') - (slot[2] - 1))
    return Link(kept_name(is_property_name, first[:end]), comparator, (kept_name(is_namespace, first[end:]), name))


def put_node(stack, slot, first, second):
    """Runs one node; what it lacks or breaks is an error."""
    tag = slot[0]
    if tag in (0, 1):
        right, left = stack.pop(), stack.pop()
        stack.append((And, Or)[tag](left, right))
    elif tag == 2:
        stack.append(Category(kept_name(is_name, first)))
    elif tag == 3:
        stack.append(InNamespace(kept_name(is_namespace, first)))
    elif tag == 4:
        stack.append(Existence(kept_name(is_property_name, first)))
    elif tag == 5:
        stack.append(Subquery(kept_name(is_property_name, first), stack.pop()))
    elif tag == 6:
        stack.append(Article(COMPARATORS[slot[1]], kept_name(is_name, second)))
    elif tag == 7:
        constant = read_constant(slot, second)
        stack.append(Value(kept_name(is_property_name, first), COMPARATORS[slot[1]], constant))
    elif tag == 8:
        stack.append(read_link(slot, first, second))
    else:
        raise ValueError


def read_query(held):
    """The core query that bytes hold, or None. Only what a node uses is looked at."""
    count = int.from_bytes(held[:2], 'little')
    if len(held) < SIZE or not 1 <= count <= MOST_NODES:
        return None
    heap, stack = held[HEAP:SIZE], []
    for at in range(NODES, NODES + NODE * count, NODE):
        slot = held[at:at + NODE]
        starts = [int.from_bytes(slot[k:k + 2], 'little') for k in (4, 6, 8, 10)]
        try:
            put_node(stack, slot, heap[starts[0]:starts[0] + starts[1]], heap[starts[2]:starts[2] + starts[3]])
        except (ValueError, IndexError):
            return None
    return stack[0] if len(stack) == 1 else None
