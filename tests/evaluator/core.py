"""Core queries: seven selectors, AND and OR. Core comparators are = != > <; a link has one of the six as they are typed."""
from typing import NamedTuple


class Category(NamedTuple):
    name: bytes


class InNamespace(NamedTuple):
    name: bytes


class Existence(NamedTuple):
    prop: bytes


class Subquery(NamedTuple):
    prop: bytes
    query: tuple


class Article(NamedTuple):
    comparator: str
    name: bytes


class Value(NamedTuple):
    prop: bytes
    comparator: str
    constant: tuple  # (kind, value)


class Link(NamedTuple):
    prop: bytes
    comparator: bytes
    reference: tuple  # (namespace or None where none is written, name)


class And(NamedTuple):
    left: tuple
    right: tuple


class Or(NamedTuple):
    left: tuple
    right: tuple


def every_node(core):
    """All selectors, ANDs and ORs, those of subqueries too."""
    found, left = [], [core]
    while left:
        node = left.pop()
        found.append(node)
        if isinstance(node, (And, Or)):
            left += [node.left, node.right]
        elif isinstance(node, Subquery):
            left.append(node.query)
    return found


def nodes(core):
    return len(every_node(core))
