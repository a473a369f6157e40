"""Records of decimals (request 7) that are made and not drawn: texts near the shape of a number, decimals on both sides, codes, and the limit of bytes."""
import random
from itertools import product

from records import ask_case, case, fit_case, held_register, join_case, query_case, register_case  # finds the evaluator
import query_form
import tree_form
from ask import STANDS
from decimals import CODES, MOST, SHORTEST
from form import SIZE, encode
from forms_test import sized
from odd_queries import number_query
from reading import read_query
from register import page_of, register_of
from respell import spelled
from spellings import wanting
from values import read_value

DECLARED = b'(prop "N" number)\n'
HELD_NUMBERS = held_register(DECLARED + b'(page "" "a" (val "N" "-0.5"))\n')
WHOLES = [digit * count for digit in (b'0', b'1', b'9') for count in (1, 14, 15, 16, 17)]
PARTS = [b'', b'.', *(b'.' + digit * count for digit in (b'0', b'5', b'9') for count in range(1, 6))]
ONE_BYTE_OFF = b'%s1.5', b'%s.5', b'1%s5', b'1.%s', b'1.%s5', b'1.5%s'


def near_the_shape():
    """Every text of up to five of these bytes, lengths round the most, and a byte of any value in each place."""
    yield from (bytes(text) for count in range(1, 6) for text in product(b'-.05', repeat=count))
    yield from (b''.join(parts) for parts in product((b'', b'-'), WHOLES, PARTS))
    yield from (shape % bytes([byte]) for shape in ONE_BYTE_OFF for byte in range(256))


def with_value(text):
    return DECLARED + b'(page "" "a" (val "N" "%s"))\n' % text


def texts():
    """Each of these in a register and in a query."""
    for text in near_the_shape():
        yield register_case(with_value(text), SIZE)
        yield query_case(HELD_NUMBERS, b'[[N::%s]]' % text, query_form.SIZE)


def fit_texts():
    """Those that are numbers: the constants of fitted trees, and the values of registers, a few on each page."""
    fit = [text for text in near_the_shape() if read_value(b'number', text)]
    for text in fit:
        yield wanting(fit_case(tree_form.encode(read_query(b'[[N::<%s]]' % text)[1]), HELD_NUMBERS, query_form.SIZE), 0)
    for start in range(0, len(fit), 1000):
        forms = [b' (val "N" "%s")' % text for text in fit[start:start + 1000]]
        pages = [b'(page "" "p%d"%s)\n' % (at, b''.join(forms[at:at + 5])) for at in range(0, len(forms), 5)]
        yield wanting(case(DECLARED + b''.join(pages), b'[[N::>0.05]]', DECLARED + b''.join(reversed(pages))), 0)


# Decimals on both sides.

def some_near(rng, count):
    """Numbers of which many are equal and many differ behind the point only."""
    middle, most = rng.choice([0, 0, 1000, -1500, rng.randint(-MOST, MOST), MOST, -MOST]), rng.choice([2, 12, 1005, 20000])
    return [max(-MOST, min(MOST, middle + rng.randint(-most, most))) for _ in range(count)]


def pages_of(rng, numbers):
    return DECLARED + b''.join(b'(page "" "p%d" (val "N" "%s"))\n' % (place, spelled(rng, (b'number', number))) for place, number in enumerate(numbers))


def stated_marks(made, marks):
    """A record, in doubt where the evaluator marks other pages."""
    content, line, doubts = made
    return content, line, doubts + ([] if line.split()[4] == marks else [f'{marks} is stated'])


def both_sides():
    """Random numbers in a register, asked for by another one; the same numbers, spelled otherwise, in the register beside it."""
    rng = random.Random('decimals on both sides')
    for comparator, count in product(STANDS, range(40)):
        *numbers, constant = some_near(rng, 1 + rng.choice([1, 5, 30]))
        query = b'[[N::%s%s]]' % (comparator, spelled(rng, (b'number', constant)))
        marks = ''.join('01'[STANDS[comparator](number, constant)] for number in numbers)
        yield stated_marks(case(pages_of(rng, numbers), query, pages_of(rng, numbers), forgeries=count % 2), marks)


def repeats():
    """A number spelled again on its page, in one text or in two that are joined, is there once; another one is not."""
    rng = random.Random('repeats by value')
    for number in some_near(rng, 30):
        other = number - 1 if number == MOST else number + 1
        for again in (number, other):
            forms = [b' (val "N" "%s")' % spelled(rng, (b'number', one)) for one in (number, again, number, again)]
            first, second = (DECLARED + b'(page "" "a"%s)\n' % b''.join(some) for some in (forms, forms[1:2]))
            query = b'[[N::!%s]]' % spelled(rng, (b'number', number))
            yield stated_marks(case(first, query, second), '01'[again == other])


# Held numbers.

def codes():
    """Those at the ends of the range and any others, as a constant and as a value, in each call."""
    rng = random.Random('codes')
    some = [code for code, _ in CODES] + [rng.randrange(1 << rng.randint(1, 64)) for _ in range(60)] + [rng.randrange(2 * 10 ** 18) for _ in range(60)]
    ends = encode(register_of([(b'N', b'number')], [page_of(b'', b'p%d' % at, [], [(b'N', (b'number', n))]) for at, n in enumerate((-MOST, -1, 0, 1, MOST))]))
    tree = tree_form.encode(read_query(b'[[N::>0.5]]')[1])
    for code in some:
        refused, queries = not 0 < code < 2 * 10 ** 18, [number_query(comparator, code) for comparator in range(4)]
        held = encode(register_of([(b'N', b'number')], [page_of(b'', b'a', [], [(b'N', (b'number', code - 10 ** 18))])]))
        yield from (wanting(ask_case(query, ends, 5), 21 * refused) for query in queries)
        yield from (wanting(ask_case(query, held, 1), 21 * refused) for query in queries)
        yield from (wanting(ask_case(number_query(at, 10 ** 18), held, 1), 22 * refused) for at in range(4))
        yield wanting(query_case(held, b'[[N::0.5]]', query_form.SIZE), 11 * refused)
        yield wanting(fit_case(tree, held, query_form.SIZE), 11 * refused)
        yield from (wanting(join_case(*pair, SIZE), 22 * refused) for pair in ((held, ends), (ends, held)))


def byte_limit():
    """Numbers count at their shortest: 32,768 bytes with one, and one byte more."""
    for number, text in SHORTEST:
        second = encode(register_of([(b'N', b'number')], [page_of(b'', b'g0', [], [(b'N', (b'number', number))])]))
        for more in (0, 1):
            first = encode(sized(size=32768 - len('N') - len(text) + more))
            yield from (wanting(join_case(*pair, SIZE), 7 * more) for pair in ((first, second), (second, first)))


def made_decimals():
    for some in (texts, fit_texts, both_sides, repeats, codes, byte_limit):
        yield from some()
