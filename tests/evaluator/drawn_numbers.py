"""The numbers of accepted texts as they are typed, and how those of a query stand to those of its register."""
from ask import STANDS
from query import properties
from reading import Piece, read_query
from register import composed_lines, read_lines
from values import read_value

WAYS = [f'{comparator.decode()}x' for comparator in STANDS]


def number_of(text):
    return read_value(b'number', text)[1]


def in_register(text):
    """((namespace, name), property, text) of each number."""
    lines = composed_lines(read_lines(text))
    kinds = dict(lines.props)
    return {((namespace, name), prop, one) for namespace, name, _, values in lines.pages for prop, one in values if kinds[prop] == b'number'}


def in_query(text, kinds):
    """(comparator, property, text) of each number."""
    return {(one.comparator, body.head[-1], one.text) for body in properties(read_query(text)[1]) if kinds[body.head[-1]] == b'number'
            for one in body.alternatives if isinstance(one, Piece)}


def in_two_spellings(some, others):
    """Whether one page has, under one property, a number in another spelling in the other place."""
    typed = {}
    for page, prop, text in others:
        typed.setdefault((page, prop, number_of(text)), set()).add(text)
    return any(typed.get((page, prop, number_of(text)), set()) - {text} for page, prop, text in some)


def share(text):
    """What a number is in the shares: a decimal where its thousandths are no whole number."""
    return 'decimal' if number_of(text) % 1000 else 'whole'


def decided(comparator, constant, text):
    """Whether what lies behind the points decides that a register's number stands so to a query's, or both are equal and not spelled so."""
    one, other = number_of(text), number_of(constant)
    if one == other:
        return comparator in (b'', b'>', b'<') and one % 1000 and text != constant
    return STANDS[comparator](one, other) and (one < 0) == (other < 0) and abs(one) // 1000 == abs(other) // 1000


def ways_decided(asked, held):
    """The comparators of a query for which this is so."""
    return {f'{comparator.decode()}x' for comparator, prop, constant in asked for _, other, text in held if prop == other and decided(comparator, constant, text)}
