"""The papers' own examples with their answers, in the vectors' shape: `cases.py` runs them."""
import sys

import accents
import decimals
import links
from vectors import run

SAMPLE = '''(prop "Brought by" page)
(prop "In region" page)
(prop "Crates" number)
(prop "Chilled" boolean)
(prop "Lot" string)
(page "" "Bakery Noor" (cat "Supplier") (val "In region" "North"))
(page "" "Mill Oost" (cat "Supplier") (val "In region" "East"))
(page "" "North" (cat "Region"))
(page "" "D1" (cat "Delivery") (val "Brought by" "Bakery Noor") (val "Crates" "12") (val "Chilled" "no") (val "Lot" "A7") (val "Lot" "A9"))
(page "" "D2" (cat "Delivery") (val "Brought by" "Mill Oost") (val "Crates" "-3") (val "Chilled" "Yes") (val "Lot" "A7"))
(page "Talk" "D1" (cat "Note"))
'''

LETTERED = (
    ('a', '[[Lot::A7]] [[Lot::!A7]]', [3]),
    ('b', '[[Lot::A7]] OR [[Lot::!A7]]', [3, 4]),
    ('c', '[[Crates::>12]]', [3]),
    ('d', '[[Crates::>>12]]', []),
    ('e', '[[Crates::<0]]', [4]),
    ('f', '[[D1]]', [3]),
    ('g', '[[>D1]]', [1, 2, 3, 4, 5]),
    ('h', '[[!Talk:D1]]', [0, 1, 2, 4]),
    ('i', '[[Talk:+]]', [5]),
    ('j', '[[Brought by.In region::North]]', [3]),
    ('k', '[[In region::East]]', [1]),
    ('l', '[[Category:Region]] OR [[Category:Supplier]] AND [[In region::North]]', [0, 2]),
    ('m', '[[Crates::-0||-3]]', [4]),
    ('n', '[[Chilled::>no]]', [3, 4]),
    ('asklist', '[[Category:Delivery]]', [3, 4]),
)

REGISTERS_REFUSED = (
    (1, '32,769 spaces', ' ' * 32769),
    (2, 'no kind', '(prop "A")\n'),
    (3, 'colon in a name', '(page "" "a:b")\n'),
    (4, 'page twice', '(page "" "a")\n' * 2),
    (5, 'no prop line', '(page "" "a" (val "Q" "1"))\n'),
    (6, 'Crates with 12,5', SAMPLE.replace('"12"', '"12,5"')),
    (7, '257 page lines', ''.join(f'(page "" "p{i}")\n' for i in range(257))),
    (7, '2,049 forms, repeats too',
     '(prop "S" string)\n(page "" "a"' + ' (cat "c")' * 1025 + ' (val "S" "x")' * 1024 + ')\n'),
    (3, "a val's property name", '(page "" "a" (val "Q.R" "1"))\n'),
    (3, 'names are not trimmed', '(page "" "a ")\n'),
    (2, 'another kind word', '(prop "A" pages)\n'),
    (2, 'an empty line', '(page "" "a")\n\n'),
    (2, 'no last byte 10', '(page "" "a")'),
    (4, 'same property, same kind', '(prop "A" page)\n' * 2),
)

QUERIES_REFUSED = (
    (12, ' ' * 1025),
    (13, ''),
    (13, '[[a]] AND'),
    (14, '<q>' * 9 + '[[a]]' + '</q>' * 9),
    (15, '[[Category:+]]'),
    (16, '[[Lot::~A]]'),
    (17, '[[Qty::1]]'),
    (18, '[[Crates::yes]]'),
    (19, '[[a]]' * 65),
    (13, '[[a]] or [[b]]'),
    (13, '[[a]]\t[[b]]'),
    (15, '[[Lot.::A7]]'),
    (15, '[[::A7]]'),
    (14, '[[' + '.' * 8 + '::A7]]'),
    (13, '[[Category:>C]]'),
    (15, '[[Category:C||>D]]'),
    (15, '[[a||b::c]]'),
    (15, '[[Category:C||Category:D]]'),
    (15, '[[!Talk:+]]'),
    (18, '[[Brought by::Talk:+]]'),
    (13, '[[> >a]]'),
    (13, '[[!>a]]'),
    (13, '[[>>>a]]'),
    (15, '[[a\x01]]'),
    (16, '[[Lot::a\x01]]'),
    (13, '[[a]]\x01'),
    (13, '<q>' * 341),
    (13, '[[::<q>' * 146),
    (14, '<q>' * 145 + '[[a]]' + '</q>' * 145),
    (18, '[[a]]' * 65 + '[[Lot.Lot::A7]]'),
    (15, '[[a\x1f]]'),
    (16, '[[Lot::a\x1f]]'),
    (15, '[[' + 'n' * 65 + ']]'),
    (16, '[[Lot::' + 'n' * 65 + ']]'),
    (18, '[[Crates::1234567890123456]]'),
    (19, '[[!a]]' * 129),
    (19, '[[a]]' * 63 + '[[Brought by.In region::<q>[[c]]</q>]]'),
    (19, '[[a]]' * 63 + '[[' + 'Brought by.' * 4 + 'In region::c]]'),
    (19, '[[Brought by::' + 'c||' * 128 + 'c]]'),
    (19, '[[In region.In region.Brought by::' + 'c||' * 127 + 'c]]'),
)

# query, marked places, nodes
ACCEPTED = (
    ('[[a]]' * 64, [], 255),
    ('[[a]]' * 63 + '[[Brought by::c]]', [], 253),
    ('[[a]]' * 63 + '[[Brought by::<q>[[c]]</q>]]', [], 256),
    ('[[a]]' * 63 + '[[' + 'Brought by.' * 3 + 'In region::c]]', [], 256),
    ('[[Brought by::' + 'c||' * 127 + 'Mill Oost]]', [4], 255),
    ('[[Brought by.In region::' + 'c||' * 127 + 'East]]', [4], 256),
    ('<q>' * 8 + '[[D1]]' + '</q>' * 8, [3], 3),
    ('[[D1]]OR[[D2]]', [3, 4], 7),
    ('[[:D1]]', [3], 3),
    ('[[Talk : D1]]', [5], 3),
    ('[[>Talk:D1]]', [5], 5),
    ('[[<:D1]]', [0, 3], 5),
    ('[[<D1]]', [0, 3, 5], 3),
    ('[[!D1]]', [0, 1, 2, 4], 1),
    ('[[Brought by:::Mill Oost]]', [4], 1),
    ('[[Category]]', [], 3),
    ('[[:+]]', [0, 1, 2, 3, 4], 1),
    ('[[Lot::!+]]', [3, 4], 1),
    ('[[<q]]', [0, 1, 2, 3, 4, 5], 3),
    ('[[In region::+]]', [0, 1], 1),
    ('[[Crates::<-3]]', [4], 3),
    ('[[Crates::012]]', [3], 1),
    ('[[Chilled::nO]]', [3], 1),
    ('[[Brought by.In region::North||East]]', [3, 4], 4),
    ('[[Brought by::<q>[[Category:Supplier]]</q>||North]]', [3, 4], 4),
    ('[[ Category : Region || Supplier ]]', [0, 1, 2], 3),
    ('[[ Brought by . In region :: North ]]', [3], 2),
    ('[[Crates::<999999999999999]]', [3, 4], 3),
    ('[[!a]]' * 128, [0, 1, 2, 3, 4, 5], 255),
)

TABLE = '''(prop "Is located in" page)
(prop "Has zip code" string)
(prop "Has population" number)
(prop "Is capital" boolean)
(page "" "Amsterdam" (val "Is located in" "The Netherlands") (val "Has zip code" "1023") (val "Has zip code" "1024") (val "Has zip code" "1025") (val "Has population" "821752") (val "Is capital" "True") (cat "City") (cat "Capital"))
(page "" "Barcelona" (val "Is located in" "Spain") (val "Has zip code" "08001") (val "Has zip code" "08002") (val "Has zip code" "08003") (val "Has population" "1620000") (val "Is capital" "False") (cat "City"))
(page "" "Berlin" (val "Is located in" "Germany") (val "Has zip code" "10115") (val "Has zip code" "10117") (val "Has zip code" "10119") (val "Has population" "3645000") (val "Is capital" "True") (cat "City") (cat "Capital"))
(page "" "Cairo" (val "Is located in" "Egypt") (val "Has zip code" "3753450") (val "Has zip code" "3755220") (val "Has population" "9540000") (val "Is capital" "True") (cat "City") (cat "Capital"))
(page "" "Nijmegen" (val "Is located in" "The Netherlands") (val "Has zip code" "3769") (val "Has zip code" "5211") (val "Has population" "170681") (val "Is capital" "False") (cat "City"))
(page "" "Egypt" (val "Is located in" "Africa") (val "Has population" "109300000") (cat "Country"))
(page "" "Germany" (val "Is located in" "Europe") (val "Has population" "83200000") (cat "Country"))
(page "" "The Netherlands" (val "Is located in" "Europe") (val "Has population" "17530000") (cat "Country"))
(page "" "Spain" (val "Is located in" "Europe") (val "Has population" "47420000") (cat "Country"))
(page "" "Africa" (val "Has population" "1216000000") (cat "Continent"))
(page "" "Europe" (val "Has population" "746400000") (cat "Continent"))
'''

# Section 2.4. The definitions put Africa (9) into the second, and the last stands for A OR B AND C OR D.
SECTION = (
    ('[[Amsterdam]]', [0]),
    ('[[>A]] [[<<C]]', [0, 1, 2, 9]),
    ('[[Talk:+]]', []),
    ('[[Category:City]]', [0, 1, 2, 3, 4]),
    ('[[Is located in::The Netherlands]]', [0, 4]),
    ('[[Category:City]] [[Has zip code::!1023]]', [0, 1, 2, 3, 4]),
    ('[[Has population::+]]', list(range(11))),
    ('[[Category:Capital]] [[Has population::<<1000000||>>5000000]]', [0, 3]),
    ('[[Category:City]] [[Is located in::Germany||Spain||...]]', [1, 2]),
    ('[[Is located in::Europe]]', [6, 7, 8]),
    ('[[Category:City]]\n[[Is located in::<q>[[Is located in::Europe]]</q>]]', [0, 1, 2, 4]),
    ('[[Category:City]] [[Is located in.Is located in::Europe]]', [0, 1, 2, 4]),
    ('[[Category:Country]] OR [[Category:City]]', [0, 1, 2, 3, 4, 5, 6, 7, 8]),
    ('[[Category:Country]] [[Is located in::Europe]]', [6, 7, 8]),
    ('[[Category:Country]] AND [[Is located in::Europe]]', [6, 7, 8]),
    ('[[Category:Capital]] <q>[[Berlin]] OR [[Nijmegen]]</q>', [2]),
    ('[[Africa]] OR [[Category:City]] AND [[Is capital::true]] OR [[Spain]]', [0, 2, 3, 8, 9]),
)

# Runs on another register: that of the query call, query, that of the run, number, marks of the direct meaning.
STRINGS = SAMPLE.replace('"Crates" number', '"Crates" string')
NO_LINKS = SAMPLE.replace('"Brought by" page', '"Brought by" string')
UNDECLARED = '(page "" "D1")\n(page "" "D2")\n'
SECOND_RUNS = (
    (SAMPLE, '[[Crates::>12]]', STRINGS, 23, '000100'),
    (STRINGS, '[[Crates::a]]', SAMPLE, 23, '000000'),
    (SAMPLE, '[[Crates::+]]', STRINGS, 0, '000110'),
    (SAMPLE, '[[Crates::>12]] OR [[D2]]', UNDECLARED, 0, '01'),
    (SAMPLE, '[[Brought by.Crates::12]] OR [[D1]]', STRINGS, 23, '000100'),
    (STRINGS, '[[Lot::A7]] OR [[Crates::12]]', '(prop "Crates" page)\n(page "" "D1")\n', 0, '0'),
    (SAMPLE, '[[Brought by::Bakery Noor]] OR [[D2]]', NO_LINKS, 23, '000110'),
    (SAMPLE, '[[Brought by.In region::North]]', NO_LINKS, 23, '000000'),
    (SAMPLE, '[[Brought by::<q>[[D1]]</q>]] OR [[North]]', NO_LINKS, 23, '001000'),
)


def accepted(label, register, pages, query, places, **more):
    marks = ''.join('01'[place in places] for place in range(pages))
    return {'label': label, 'register': register, 'register_number': 0, 'pages': pages, 'query': query,
            'query_number': 0, 'count': len(places), 'marks': marks, **more}


def register_refused(number, label, register):
    return {'label': label, 'register': register, 'query': '', 'register_number': number}


def query_refused(number, query):
    return {'label': query[:60], 'register': SAMPLE, 'register_number': 0, 'query': query, 'query_number': number}


def second_run(register, query, second, number, marks):
    return {'label': f'{query} on another register', 'register': register, 'register_number': 0, 'query': query,
            'query_number': 0, 'second': second, 'second_number': number, 'second_direct': marks}


def by_request():
    """The cases of requests that have a file of their own."""
    for label, register, pages, query, places, nodes in (*links.accepted(), *decimals.accepted()):
        yield accepted(label, register, pages, query, places, nodes=nodes)
    for shape, some in ((second_run, links.second_runs()), (accepted, accents.accepted()), (register_refused, accents.registers_refused()),
                        (query_refused, accents.queries_refused()), (second_run, accents.second_runs()),
                        (register_refused, decimals.registers_refused()), (query_refused, decimals.queries_refused()),
                        (second_run, decimals.second_runs())):
        yield from (shape(*one) for one in some)


def scripted():
    """The cases that the program vectors has room for."""
    for letter, query, places in LETTERED:
        yield accepted(letter, SAMPLE, 6, query, places)
    yield from (register_refused(*one) for one in REGISTERS_REFUSED)
    yield from (query_refused(*one) for one in QUERIES_REFUSED)
    for query, places, nodes in ACCEPTED:
        yield accepted(query[:60], SAMPLE, 6, query, places, nodes=nodes)
    for query, places in SECTION:
        yield accepted(query, TABLE, 11, query, places)
    yield from (second_run(*one) for one in SECOND_RUNS)
    yield from by_request()


def cases():
    yield from scripted()
    for shape, some in ((accepted, decimals.compared()), (register_refused, decimals.more_registers_refused()),
                        (query_refused, decimals.more_queries_refused())):
        yield from (shape(*one) for one in some)


if __name__ == '__main__':
    sys.exit(1 if run(cases()) else 0)
