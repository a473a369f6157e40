"""Numbers as thousandths: how they are typed, held and asked for, stated here once more."""
from itertools import product

import library  # finds the evaluator
import decimals
from core import Value
from form import TERMS, encode, lay, term_bytes
from forms_test import sized
from query_form import NODES, held_query
from register import page_of, register_of

BIAS = 10 ** 18
STEP = 2 ** 56  # codes that are so far apart differ in their last byte alone

READ = {
    0: b'0 -0 00 000000000000000 -000000000000000 0.0 -0.0 0.00 0.000 -0.000 000000000000000.000',
    1: b'0.001 00.001', -1: b'-0.001 -00.001', 5: b'0.005', 10: b'0.01 0.010', 50: b'0.05 0.050', 100: b'0.1 0.10 0.100',
    500: b'0.5 0.50 0.500 00.5', -500: b'-0.5 -0.50 -0.500 -00.5', 999: b'0.999', -999: b'-0.999',
    1000: b'1 01 1.0 1.00 1.000', -1000: b'-1 -1.0 -01.000', 1005: b'1.005', 1050: b'1.05 1.050', 1500: b'1.5 1.50 01.500', -1500: b'-1.5 -1.500',
    12500: b'12.5 000000000000012.500', BIAS - 1000: b'999999999999999 999999999999999.0', BIAS - 1: b'999999999999999.999',
    1 - BIAS: b'-999999999999999.999',
}
UNFIT = [text.encode('latin-1') for text in decimals.UNFIT + decimals.MORE_UNFIT]
NUMBERS = sorted({sign * one for sign in (1, -1) for one in (
    *(n for n in READ if n >= 0), 120, 1001, 1999, 2000, 10000, 10100, *(10 ** power + more for power in range(3, 18) for more in (-1, 0)), BIAS - 2,
    *(STEP * times + more for times in range(1, 14) for more in (-1, 0, 1)))})
COMPARATORS = {b'': lambda a, b: a == b, b'!': lambda a, b: a != b, b'>>': lambda a, b: a > b, b'<<': lambda a, b: a < b, b'>': lambda a, b: a >= b,
               b'<': lambda a, b: a <= b}
CODES = {0: False, 1: True, 2: True, 10 ** 15: True, 2 * 10 ** 15: True, STEP - 1: True, STEP: True, BIAS - 1: True, BIAS: True, BIAS + 1: True, 2 ** 60: True,
         2 * BIAS - 1: True, 2 * BIAS: False, 2 * BIAS + 1: False, 2 * BIAS + STEP: False, 2 ** 61: False, 2 ** 61 + BIAS: False, 2 ** 63: False,
         2 ** 63 + BIAS: False, 2 ** 64 - 1: False}


def typed():
    """All texts of up to five bytes out of four, and parts that are fit or unfit put together."""
    for length in range(1, 6):
        yield from map(bytes, product(b'-.05', repeat=length))
    wholes = b'', b'0', b'7', b'01', b'9' * 15, b'0' * 15, b'1' + b'0' * 15, b'0' * 16
    ends = b'', b'0', b'05', b'50', b'001', b'120', b'999', b'0000', b'1234', b'9e1'
    yield from map(b''.join, product((b'', b'-', b'+'), wholes, (b'', b'.', b',', b'.-'), ends))


def shortest(number):
    whole, left = divmod(abs(number), 1000)
    return b'-' * (number < 0) + (b'%d.%03d' % (whole, left)).rstrip(b'0').rstrip(b'.')


def spellings(number):
    """The shortest, one with all three places, and one with zeros before."""
    short, sign = shortest(number), b'-' * (number < 0)
    whole, point, left = short[len(sign):].partition(b'.')
    return [short, sign + whole + b'.' + left.ljust(3, b'0'), sign + whole.rjust(15, b'0') + point + left]


def text_with(*values):
    """A page with these."""
    return b'(prop "N" number)\n(page "" "a"%s)\n' % b''.join(b' (val "N" "%s")' % value for value in values)


def shuffled(rng, numbers):
    """A text with all spellings of the numbers."""
    values = [value for number in numbers for value in spellings(number)]
    rng.shuffle(values)
    return text_with(*values)


def text_of_pages():
    """A page for each number, which has that, and one that links to all of these."""
    pages = b''.join(b'(page "" "p%d" (val "N" "%s"))\n' % (place, shortest(number)) for place, number in enumerate(NUMBERS))
    return b'(prop "N" number)\n(prop "P" page)\n' + pages + b'(page "" "q"%s)\n' % b''.join(b' (val "P" "p%d")' % place for place in range(len(NUMBERS)))


def chains():
    """The dot of a value and that of a chain."""
    for head in (b'N', b'P.N', b'P.P.N', b'P . N', b'N.N', b'N.5', b'.N', b'N.', b'P', b'P.P'):
        for value in (b'0.5', b'>0.5', b'>>-0.5', b'<< -0.5 ', b'!1.50', b'0.5||1.5', b'0.5||.5', b'1.', b'.5', b'1.2345', b'-0.0', b'+', b'1.5||+'):
            yield b'[[%s::%s]]' % (head, value)


def form_of_codes(*codes):
    """What would be the form of a page with numbers of these codes."""
    terms = [term_bytes(1, code) for code in codes]
    return lay([(1, 0)], [1], [0, len(terms)], range(len(terms)), terms, [b'\0N', b'\0a'])


def forms():
    """(label, whether one, bytes): codes at their ends, and pairs in the order of their bytes or not."""
    for code, kept in CODES.items():
        yield f'code {code}', kept, form_of_codes(code)
    for one, other in ((1, 1 + STEP), (BIAS, BIAS + STEP), (BIAS - STEP, BIAS), (BIAS - 13 * STEP, BIAS + 13 * STEP), (2 * BIAS - 1 - STEP, 2 * BIAS - 1), (256, 1),
                       (STEP, 255), (27 * STEP, 1)):
        yield f'{one} before {other}', True, form_of_codes(one, other)
        yield f'{other} before {one}', False, form_of_codes(other, one)
        yield f'{one} twice', False, form_of_codes(one, one)
        yield f'{one} before {other} and {one} again', False, form_of_codes(one, other, one)


def query_of_code(code, comparator='='):
    """A comparison with a number."""
    held = bytearray(held_query(Value(b'N', comparator, (b'number', 0))))
    held[NODES + 12:NODES + 20] = code.to_bytes(8, 'little')
    return bytes(held)


def queries():
    """(label, whether one, bytes): each code compared."""
    return [(f'constant of code {code}', kept, query_of_code(code, comparator)) for code, kept in CODES.items() for comparator in ('=', '>')]


class Filled:
    """Forms of as many bytes of names and values as there may be, one of them a number, or of one byte more."""

    def __init__(self):
        self.made = {}

    def register(self, size, value):
        """`size`: of all but the number."""
        page = sized(size=size - 1).pages[0]
        return register_of([(b'N', b'number')], [page_of(*page[:3], [(b'N', value)])])

    def form(self, number, total):
        """The number is the last term."""
        size = total - len(shortest(number))
        held = bytearray(self.made.get(size) or self.made.setdefault(size, encode(self.register(size, (b'number', 0)))))
        at = TERMS + 9 * (int.from_bytes(held[4:6], 'little') - 1)
        held[at + 1:at + 9] = (BIAS + number).to_bytes(8, 'little')
        return bytes(held)
