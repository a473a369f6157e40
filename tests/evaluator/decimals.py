"""Request 7 (paper 02, Ask 7): decimals, with the answers that it states, for cases.py; and numbers for the tests of held forms."""
from itertools import product

MOST = 10 ** 18 - 1  # thousandths

# The spellings of one number in a row; rows ascend.
ASCENDING = (
    ('-999999999999999.999',),
    ('-999999999999999.99', '-999999999999999.990'),
    ('-999999999999999', '-999999999999999.0'),
    ('-10', '-010.00'),
    ('-9.5', '-9.50'),
    ('-1.005',),
    ('-1', '-1.0', '-01.000'),
    ('-0.999',),
    ('-0.5', '-0.50', '-00.500'),
    ('-0.05', '-0.050'),
    ('-0.001', '-000000000000000.001'),
    ('0', '-0', '-0.0', '0.000', '-00.00', '000000000000000.0'),
    ('0.001', '00.001'),
    ('0.05', '0.050'),
    ('0.5', '0.50', '0.500'),
    ('0.999', '000000000000000.999'),
    ('1', '1.0', '001.000'),
    ('1.005', '01.005'),
    ('1.05', '1.050'),
    ('1.5', '1.50', '01.500'),
    ('9.5', '9.500'),
    ('10', '10.0'),
    ('12.499',),
    ('12.5', '12.500', '012.50'),
    ('1000', '1000.000'),
    ('999999999999999', '999999999999999.00'),
    ('999999999999999.99', '999999999999999.990'),
    ('999999999999999.999',),
)
# By each comparator, the rows that stand so to row i of them.
STAND = {
    '': lambda rows, i: rows[i:i + 1],
    '!': lambda rows, i: rows[:i] + rows[i + 1:],
    '>': lambda rows, i: rows[i:],
    '>>': lambda rows, i: rows[i + 1:],
    '<': lambda rows, i: rows[:i + 1],
    '<<': lambda rows, i: rows[:i],
}

# Texts that are values and no numbers; the first of them are stated.
UNFIT = '1.', '.5', '1.2345', '1,5', '+1', '1e3', '-', '-.5', '1..5', '1.5.0', '1234567890123456', '1234567890123456.5'
MORE_UNFIT = ('.', '-.', '-1.', '--1.5', '-+1.5', '+1.5', '1.5-', '1.-5', '1.+5', '- 1.5', '1 .5', '1. 5', '1.5 5', '1.0000', '-0.0000', '0.0005', '1.5e0',
              '1.e3', '0x1.8', 'NaN', 'Infinity', '1_5', '1.5,', '1./', '1.:', '/.5', '1:5', '0000000000000001', '0000000000000001.5', '-0000000000000000',
              '9999999999999999.999', '99999999999999.9999', '1.5m', '\xd9\xa1.5', '1.\xd9\xa5', '1\xc2\xb75', '1.\xc2\xb2', '1.5\xc2\xa0')

HALVES = '''(prop "Brought by" page)
(prop "Weight" number)
(prop "Crates" number)
(prop "5" number)
(prop "Lot" string)
(page "" "Bakery" (val "Weight" "0.5") (val "5" "2.5"))
(page "" "Mill" (val "Weight" "-0.5"))
(page "" "D1" (val "Brought by" "Bakery") (val "Crates" "12.5") (val "Lot" "1.5"))
(page "" "D2" (val "Brought by" "Mill") (val "Crates" "1.5") (val "Crates" "1.50") (val "Crates" "01.500") (val "Lot" "1.50"))
(page "" "D3" (val "Brought by" "12.5") (val "Crates" "-0.0"))
(page "" "12.5" (cat "0.5") (val "Weight" "0.501"))
'''
# query, marked places, nodes. The point of a number is not the dot of a chain; names and strings with a point are no numbers.
FOUND = (
    ('[[Crates::12.5]]', [2], 1),
    ('[[Crates:: 012.500 ]]', [2], 1),
    ('[[Crates::12]]', [], 1),
    ('[[Crates::1.5]]', [3], 1),
    ('[[Crates::!1.50]]', [2, 4], 1),
    ('[[Crates::0]]', [4], 1),
    ('[[Crates::!-0.000]]', [2, 3], 1),
    ('[[Crates::<1.499||>>1.501]]', [2, 4], 5),
    ('[[Crates::<999999999999999.999]] [[Crates::>>-999999999999999.999]]', [2, 3, 4], 5),
    ('[[Weight::>>-1]] [[Weight::<<0]]', [1], 3),
    ('[[Weight::<-1||>0]]', [0, 5], 7),
    ('[[Brought by.Weight::>0.5]]', [2, 4], 4),
    ('[[Brought by.Weight::>>0.5]]', [4], 2),
    ('[[Brought by . Weight::<<00.50]]', [3], 2),
    ('[[Brought by.5::2.5]]', [2], 2),
    ('[[Brought by::<q>[[Weight::0.5||-0.50]]</q>]]', [2, 3], 4),
    ('[[12.5]]', [5], 3),
    ('[[Category:0.5]]', [5], 1),
    ('[[Brought by::12.5]]', [4], 1),
    ('[[Brought by::12.50]]', [], 1),
    ('[[Lot::1.5]]', [2], 1),
    ('[[Lot::!1.5]]', [3], 1),
)
IN_REGISTERS = ('(prop "N" number)\n(page "" "a" (val "N" "%s"))\n',
                '(page "" "a" (val "N" "0.5"))\n(page "T" "b" (val "N" "-0.5") (val "N" "%s"))\n(prop "N" number)\n')
IN_QUERIES = '[[Crates::%s]]', '[[Crates::>>%s]]', '[[Brought by.Crates::1.5||<%s]]', '[[D1]] OR [[Brought by::<q>[[Crates::!%s]]</q>]]'
REFUSED = (17, '[[12.5::1]]'), (17, '[[Crates.5::1.5]]'), (18, '[[Crates.Crates::1.5]]'), (18, '[[Chilled::1.0]]'), (18, '[[Chilled::0.0]]')

# Thousandths, and the shortest text of them.
SHORTEST = (
    (0, '0'), (1, '0.001'), (-1, '-0.001'), (20, '0.02'), (-50, '-0.05'), (500, '0.5'), (-500, '-0.5'), (999, '0.999'), (1000, '1'), (-1000, '-1'),
    (1005, '1.005'), (9990, '9.99'), (10000, '10'), (10020, '10.02'), (12500, '12.5'), (99999, '99.999'), (-120000, '-120'), (100100, '100.1'),
    (MOST - 999, '999999999999999'), (999 - MOST, '-999999999999999'), (MOST - 99, '999999999999999.9'), (MOST, '999999999999999.999'),
    (-MOST, '-999999999999999.999'),
)
# Codes, and whether they are those of a held number: that of 0 is 10^18.
CODES = (*((code, True) for code in (1, 2, 1000, 10 ** 15, 2 * 10 ** 15, 10 ** 18 - 1, 10 ** 18, 10 ** 18 + 1, 2 * 10 ** 18 - 1000, 2 * 10 ** 18 - 1)),
         *((code, False) for code in (0, 2 * 10 ** 18, 2 * 10 ** 18 + 1, 1 << 61, 3 * 10 ** 18, (1 << 63) + 10 ** 18, (1 << 64) - 1)))

# Another register to run on.
OTHER = '(prop "Crates" %s)\n(page "" "a" (val "Crates" "12.50"))\n(page "" "b" (val "Crates" "12.05"))\n'


def compared():
    """Each is (label, register, pages, query, marked places): every row asked for by every comparator, in one spelling or another; and repeats."""
    lines = [f'(page "" "p{place}" (val "N" "{row[place % len(row)]}"))\n' for place, row in enumerate(ASCENDING)]
    register, places = '(prop "N" number)\n' + ''.join(lines), [*range(len(ASCENDING))]
    for place, row in enumerate(ASCENDING):
        for turn, (comparator, stand) in enumerate(STAND.items(), place + 1):
            query = f'[[N::{comparator}{row[turn % len(row)]}]]'
            yield query, register, len(places), query, stand(places, place)
    yield '2,048 forms of one number', repeats(2048), 1, '[[N::!1.00]]', []


def repeats(count):
    """A register with so many forms, all of one number."""
    texts = [('1', '1.0')[at % 2] for at in range(count)]
    return '(prop "N" number)\n(page "" "a"' + ''.join(f' (val "N" "{text}")' for text in texts) + ')\n'


def accepted():
    """Each is (label, register, pages, query, marked places, nodes)."""
    yield from ((query, HALVES, 6, query, places, nodes) for query, places, nodes in FOUND)


def others(shapes):
    """What is stated in all shapes but the first, and what is not in all."""
    yield from product(UNFIT, shapes[1:])
    yield from product(MORE_UNFIT, shapes)


def registers_refused():
    """Each is (number, label, register)."""
    yield from ((6, f'number {text}', IN_REGISTERS[0] % text) for text in UNFIT)


def more_registers_refused():
    yield from ((6, f'number {text}', shape % text) for text, shape in others(IN_REGISTERS))
    yield from ((6, f'boolean {text}', f'(prop "B" boolean)\n(page "" "a" (val "B" "{text}"))\n') for text in ('1.0', '0.0'))
    yield 7, '2,049 forms of one number', repeats(2049)


def queries_refused():
    """Each is (number, query); the register is the papers' sample."""
    yield from ((18, IN_QUERIES[0] % text) for text in UNFIT)
    yield from REFUSED


def more_queries_refused():
    yield from ((18, shape % text) for text, shape in others(IN_QUERIES))


def second_runs():
    """Each is (register of the query call, query, register of the run, number, marks)."""
    made = '(prop "Crates" number)\n'
    yield from ((made, '[[Crates::12.5]]', OTHER % kind, number, marks) for kind, number, marks in (('number', 0, '10'), ('string', 23, '00')))
