"""Records that are made and not drawn: stated answers, edges, pairs of faults, and held queries that no text gives."""
from functools import reduce
from itertools import permutations

from records import ask_case, case, held_register, query_case, register_case  # finds the evaluator
import cases
import query_form
from core import And, Article, Existence, InNamespace, Link, Or, Subquery, Value
from form import SIZE
from odd_queries import odd_queries
from query import query_call
from register import register_call
from spellings import wanting

SAMPLE = cases.SAMPLE.encode()
HELD_SAMPLE = held_register(SAMPLE)


def stated(found):
    """A case of the papers or of the vectors, with their own answers."""
    texts = [found.get(name, '').encode('latin-1') for name in ('register', 'query', 'second')]
    content, line, doubts = case(*texts, forgeries=4)
    words = line.split()
    wanted = {0: found['register_number'], 2: found.get('query_number')}
    bad = [f'{-number} is stated' for at, number in wanted.items() if number is not None and words[at] != str(-number)]
    if 'marks' in found and words[3:5] != [str(found['count']), found['marks'] or '-']:
        bad.append(f"{found['marks']} is stated")
    if found.get('second_number') and words[5] != str(-found['second_number']):
        bad.append(f"second {found['second_number']} is stated")
    return content, line, doubts + bad


def form_of(text):
    return query_form.held_query(query_call(register_call(SAMPLE)[1], text)[1])


def edges():
    """Buffer lengths, empty inputs and bytes that are no form."""
    held, query, other = HELD_SAMPLE, form_of(b'[[Crates::>12]]'), held_register(cases.STRINGS.encode())
    for length in (0, 1, SIZE - 1, SIZE, SIZE + 1):
        yield from (register_case(text, length) for text in (SAMPLE, b'', b'\n', b' ' * 32768, b' ' * 32769))
    for length in (0, query_form.SIZE - 1, query_form.SIZE, query_form.SIZE + 1):
        for text in (b'[[D1]]', b'', b' ' * 1025, b'[[Qty::1]]'):
            yield from (query_case(h, text, length) for h in (held, held + b'x', held[:-1], b'', b'\xff' * SIZE))
    for q in (query, query + b'x', query[:-1], b'', b'\xff' * query_form.SIZE, bytes(query_form.SIZE)):
        for h in (held, held + b'x', held[:-1], b'', b'\xff' * SIZE, other, bytes(SIZE)):
            yield from (ask_case(q, h, length) for length in (0, 5, 6, 7, 300))


REGISTER_FAULTS = (b'(page "" "a:b")\n', b'(page "" "a")\n' * 2, b'(page "" "b" (val "Q" "1"))\n', b'(page "" "c" (val "N" "x"))\n')
OVER_LIMITS = (b'', b''.join(b'(prop "p%d" page)\n' % i for i in range(64)), b''.join(b'(page "" "p%d")\n' % i for i in range(257)),
               b'(page "" "d"' + b' (cat "c")' * 2049 + b')\n')
QUERY_FAULTS = (b'<q>' * 9 + b'[[a]]' + b'</q>' * 9, b'[[Category:+]]', b'[[Lot::~A]]', b'[[Qty::1]]', b'[[Crates::yes]]', b'[[a]]' * 65)


def chosen(parts, which):
    return [one for at, one in enumerate(parts) if which >> at & 1]


def fault_sets():
    """Every set of faults, in both orders: the lowest number is returned wherever the faults stand."""
    for which in range(16):
        for over in OVER_LIMITS:
            parts = [b'(prop "N" number)\n', *chosen(REGISTER_FAULTS, which), over]
            for text in (b''.join(parts), b''.join(reversed(parts))):
                yield from (register_case(text + end, SIZE - which % 2) for end in (b'', b'(prop "A")\n', b' ' * 32769))
    for which in range(64):
        parts = [b'[[D1]]', *chosen(QUERY_FAULTS, which)]
        for text in (b''.join(parts), b' OR '.join(reversed(parts))):
            yield from (query_case(HELD_SAMPLE, text + end, query_form.SIZE - which % 2) for end in (b'', b' AND', b' ' * 1025))


def chains():
    """A chain's names in every order, where only one order leads on."""
    register = b'(prop "P" page)\n(prop "Q" page)\n(prop "R" page)\n(page "" "a" (val "P" "b"))\n(page "" "b" (val "Q" "c"))\n'
    register += b'(page "" "c" (val "R" "d") (val "R" "no page"))\n(page "" "d" (val "R" "a") (val "Q" "no page"))\n'
    for names in permutations((b'P', b'Q', b'R')):
        yield from (case(register, b'[[%s::%s]]' % (b'.'.join(names), piece), SAMPLE) for piece in (b'd', b'a', b'+', b'!x', b'no page'))


def by_hand():
    """Core queries that no text gives, and node counts round 256."""
    links = (b'Brought by', b'In region')
    for deep in (InNamespace(b''), Link(links[1], b'', (None, b'East'))):
        for count in range(1, 258):
            if count < 9 or count > 250:
                yield ask_case(query_form.held_query(deep), HELD_SAMPLE, 6)
            deep = Subquery(links[count % 2], deep)
    for one in (Article('=', b'D1'), Link(links[1], b'<', (b'', b'East'))):
        right = left = one
        for count in range(128):
            right, left = And(one, right), Or(left, one)
            if count < 4 or count > 124:
                yield from (ask_case(query_form.held_query(core), HELD_SAMPLE, 6) for core in (right, left))
        yield ask_case(query_form.held_query(And(right.right, Subquery(links[0], Existence(links[0])))), HELD_SAMPLE, 6)


ALL_NODES = (b'[[Category:Delivery]] [[!a]] OR [[Crates::12]] OR [[Chilled::no]] OR [[Lot::A7]] OR [[Brought by::<q>[[In region::+]] [[:+]]</q>]]'
             b' OR [[In region:::East||!Talk:North]]')


def field_edits():
    """Every byte of the nodes and strings of a query with all kinds of nodes, changed to each of a few values."""
    form = form_of(ALL_NODES)
    ends = query_form.NODES + query_form.NODE * int.from_bytes(form[:2], 'little'), len(form.rstrip(b'\0'))
    for at in [*range(ends[0]), *range(query_form.HEAP, ends[1] + 1)]:
        for byte in {0, 1, 2, 3, 4, 8, 9, 255, form[at] + 1, abs(form[at] - 1)} - {form[at]}:
            yield ask_case(form[:at] + bytes([byte % 256]) + form[at + 1:], HELD_SAMPLE, 6)


def heap_edges():
    """Strings at the end of the heap and past it, where they are cut, and full heaps: 128 links have the most."""
    for tag, content in ((2, b'Delivery'), (3, b'Talk'), (4, b'Crates'), (6, b'D1')):
        for start in (query_form.MOST_HEAP - len(content), query_form.MOST_HEAP - 1, query_form.MOST_HEAP, 65535):
            for length in (len(content) - 1, len(content), len(content) + 1, 65535):
                at = 8 if tag == 6 else 4
                row = bytes([tag]).ljust(at, b'\0') + query_form.two(start) + query_form.two(length)
                yield ask_case(query_form.two(1) + row.ljust(query_form.SIZE - 2 - len(content), b'\0') + content, HELD_SAMPLE, 6)
    name = b'p' * 64
    links = Subquery(name, reduce(And, [Link(name, b'>', (b'q' * 64, b'r' * 64))] * 128))
    chain = reduce(lambda inner, _: Subquery(name, inner), range(255), Value(name, '=', (b'string', b'v' * 64)))
    for held in map(query_form.held_query, (links, chain)):
        last = len(held.rstrip(b'\0')) - 1
        for at, byte, refusal in ((last, b'~', 0), *((last - 64 * more, b'"', 21) for more in range(4)), (len(held), b'x', 0)):
            yield wanting(ask_case(held[:at] + byte + held[at + 1:], HELD_SAMPLE, 6), refusal)


def query_forms():
    """Held queries of links and numbers, laid by hand, on a register with such links and numbers."""
    pages = b'(page "" "a" (val "P" "D1") (val "N" "-0.001"))\n(page "" "b" (val "P" "Talk:D1") (val "N" "999999999999999.999"))\n'
    pages += b'(page "" "c" (val "P" "D2") (val "P" "T:D0") (val "N" "-999999999999999.999"))\n'
    held = held_register(b'(prop "P" page)\n(prop "N" number)\n' + pages)
    yield from (wanting(ask_case(query, held, 3), 0 if core else 21) for _, core, query in odd_queries())


def handmade():
    for some in (edges, fault_sets, chains, by_hand, field_edits, heap_edges, query_forms):
        yield from some()
