"""Request 1 (paper 02, Ask 1): a link counts by what it names, page or no page, with the answers that it states, for cases.py."""
from accents import WAYS, typed

# Under P, places 0 to 5 name D1, D0 and D2, in main and in Talk; 6 names two at once under Q. None of these is a page.
NO_PAGES = '''(prop "P" page)
(prop "Q" page)
(page "" "a" (val "P" "D1"))
(page "" "b" (val "P" "Talk:D1"))
(page "" "c" (val "P" ":D0"))
(page "" "d" (val "P" "Talk : D0"))
(page "" "e" (val "P" "D2"))
(page "" "f" (val "P" "Talk:D2"))
(page "" "g" (val "Q" "D1") (val "Q" "Talk:D9"))
'''
# Now each of them is.
AS_PAGES = NO_PAGES + ''.join(f'(page "{namespace}" "{name}")\n' for namespace in ('', 'Talk') for name in ('D0', 'D1', 'D2', 'D9'))

# Each comparator: what it finds of D1 with no namespace, with the main one written, with Talk, and with one that no link has.
NAMED = {
    '': ([0], [0], [1], []),
    '!': ([2, 3, 4, 5],) * 4,
    '>>': ([4, 5], [4], [5], []),
    '<<': ([2, 3], [2], [3], []),
    '>': ([0, 1, 4, 5], [0, 4], [1, 5], []),
    '<': ([0, 1, 2, 3], [0, 2], [1, 3], []),
}
REFERENCES = 'D1', ':D1', 'Talk : D1', 'User:D1'

# query, marked places, nodes. One and the same link has the namespace and the name.
SEVERAL = (
    ('[[Q::Talk:D1]]', [], 1),
    ('[[Q::D9]]', [], 1),
    ('[[Q::>>:D1]]', [], 1),
    ('[[Q::<<Talk:D9]]', [], 1),
    ('[[Q::>>D1]]', [6], 1),
    ('[[Q::D1]] [[Q::!D1]]', [6], 3),
    ('[[Q::D1]] [[P::+]]', [], 3),
    ('[[P::D1||>>Talk:D1||+]]', [0, 1, 2, 3, 4, 5], 5),
    ('[[P:: ! User : D1 ]]', [2, 3, 4, 5], 1),
    ('[[P:: > :D1]]', [0, 4], 1),
)

# p links to q, s to r, r to no page, and Talk:gone, which is a page, to itself.
CHAINED = '''(prop "A" page)
(prop "B" page)
(page "" "p" (val "A" "q"))
(page "" "q" (val "B" "nowhere"))
(page "" "r" (val "A" "gone"))
(page "" "s" (val "A" "r"))
(page "Talk" "gone" (val "A" "Talk:gone") (val "B" "nowhere"))
'''
# A written-out subquery, and every name of a chain but the last, goes through pages.
THROUGH_PAGES = (
    ('[[A.B::nowhere]]', [0, 4], 2),
    ('[[A.B::!x]]', [0, 4], 2),
    ('[[A.B::+]]', [0, 4], 2),
    ('[[A.A::gone]]', [3], 2),
    ('[[A.A::!x]]', [3, 4], 2),
    ('[[A.A.A::!x]]', [4], 3),
    ('[[B.A::+]]', [], 2),
    ('[[B.A::!x]]', [], 2),
    ('[[A.A::<q>[[!x]]</q>]]', [4], 3),
    ('[[A::gone]]', [2], 1),
    ('[[A::<q>[[gone]]</q>]]', [], 4),
    ('[[A::Talk:gone]]', [4], 1),
    ('[[A::<q>[[Talk:gone]]</q>]]', [4], 4),
    ('[[A::!Talk:gone]]', [0, 3], 1),
    ('[[A::!q]]', [2, 3, 4], 1),
    ('[[A::<q>[[!q]]</q>]]', [3, 4], 2),
    ('[[A::<q>[[A::gone]]</q>]]', [3], 2),
    ('[[A::gone||<q>[[r]]</q>]]', [2, 3], 6),
    ('[[B::<q>[[!x]]</q>||nowhere]]', [1, 4], 4),
)

# A run on another register: what it declares, and a value that its page D1 has, if any; number; whether D1 is marked by the direct meaning.
RUNS = (
    ('(prop "P" string)', 'Talk:D1', 23, True),
    ('(prop "P" string)', 'D1', 23, False),
    ('(prop "P" number)', '1', 23, False),
    ('(prop "P" boolean)', 'yes', 23, False),
    ('(prop "P" string)', None, 0, False),
    ('(prop "Q" string)', None, 0, False),
    ('(prop "P" page)', 'Talk:D1', 0, True),
    ('(prop "P" page)', 'User:D1', 0, False),
)


def found():
    """Each is (label, register, pages, query, marked places, nodes)."""
    for pages, register in ((7, NO_PAGES), (15, AS_PAGES)):
        for comparator, answers in NAMED.items():
            queries = [f'[[P::{comparator}{reference}]]' for reference in REFERENCES]
            yield from ((query, register, pages, query, places, 1) for query, places in zip(queries, answers))
        yield from ((query, register, pages, query, places, nodes) for query, places, nodes in SEVERAL)
    yield from ((query, CHAINED, 5, query, places, nodes) for query, places, nodes in THROUGH_PAGES)


def in_two_spellings():
    """A name with no page, typed two ways (request 4)."""
    for way, other in (WAYS, WAYS[::-1]):
        register = typed(way, '(prop "Führt" page)\n(page "" "a" (val "Führt" "Köln:Süd"))\n')
        for query in ('[[Führt::Köln:Süd]]', '[[Führt::>Süd]]', '[[Führt::<Köln:Süd]]'):
            yield f'{query} as {other}', register, 1, typed(other, query), [0], 1
        yield 'a namespace in another spelling', register, 1, typed(other, '[[Führt::<<Köln:Süd||!Süd]]'), [], 3


def accepted():
    yield from found()
    yield from in_two_spellings()


def second_runs():
    """Each is (register of the query call, query, register of the run, number, marks)."""
    first = '(prop "P" page)\n(prop "Q" page)\n'
    for props, value, number, marked in RUNS:
        held = f' (val "P" "{value}")' if value else ''
        yield first, '[[P::Talk:D1]] OR [[b]]', f'{props}\n(page "" "D1"{held})\n(page "" "b")\n', number, f'{marked:d}1'
    for query in ('[[P::!D1]]', '[[P::>>:D1]]', '[[Q.P::<Talk:D1]]', '[[Q::<q>[[P::<<D1]]</q>]]', '[[Q::+]] [[P::>User:D1]]'):
        yield first, query, '(prop "P" number)\n(prop "Q" page)\n(page "" "b" (val "P" "7"))\n', 23, '0'
