"""Records of held registers that are made and not drawn: joins at each limit and refused, forms written row by row, single bytes changed."""
import random

from records import ask_case, edit_case, held_register, join_case, joined, query_case  # finds the evaluator
import cases
import query_form
from form import BYTES, FORMS, PAGES, PROPS, SIZE, STARTS, TERMS, TEXTS, encode
from forms_test import made, sized
from handmade import ALL_NODES, HELD_SAMPLE, SAMPLE, form_of
from odd_forms import laid, odd_forms
from query import query_call
from register import bytes_in, page_of, register_call, register_of

EMPTY = bytes(SIZE)
NONE = b'\xff' * SIZE
LENGTHS = (0, SIZE - 1, SIZE, SIZE + 1)
THINGS = (  # what a page may have beside its name, each with its property
    ([], [b'12345'], []),
    ([(b'S', b'string')], [], [(b'S', (b'string', b'12345'))]),
    ([(b'B', b'boolean')], [], [(b'B', (b'boolean', False))]),
    ([(b'B', b'boolean')], [], [(b'B', (b'boolean', True))]),
    ([(b'N', b'number')], [], [(b'N', (b'number', -120))]),
    ([(b'L', b'page')], [], [(b'L', (b'page', (b'', b'abc')))]),
    ([(b'L', b'page')], [], [(b'L', (b'page', (b'T', b'abc')))]),
)


def both_ways(first, second, length=SIZE):
    one, other = encode(first), encode(second)
    yield join_case(one, other, length)
    yield join_case(other, one, length)


def limits():
    """Just within each limit and just over it; repeats do not count."""
    for name, one, most in (('props', 40, 64), ('pages', 200, 256), ('forms', 1500, 2048)):
        first = sized(**{name: range(one)})
        for second in (range(one, most), range(one, most + 1), range(most)):
            yield from both_ways(first, sized(**{name: second}))
    categories = [b'c%d' % number for number in range(1024)]
    for count in (1023, 1024):  # 2,048 and 2,049 forms by 1,025 terms
        first, second = (page_of(b'', *one, []) for one in ((b'a', categories + [b'd']), (b'b', categories[:count])))
        yield from both_ways(register_of([], [first]), register_of([], [second]))


def byte_limit():
    """32,768 bytes and one more, for each thing that counts."""
    for props, categories, held in THINGS:
        first = register_of([], [page_of(b'', b'g0', [], [])])
        second = register_of(props, [page_of(b'', b'g0', categories, held), page_of(b'Tt', b'h', [], [])])
        room = 32768 - bytes_in(second) + bytes_in(first)
        for size in (room, room + 1):
            yield from both_ways(sized(size=size), second)
    full = sized(size=32768)
    for other in (full, register_of([], []), register_of([(b'p', b'page')], [])):
        yield from both_ways(full, other)


def refusals():
    """22 for each of the two, 32, 7, 8, and the lower of their order wherever several hold."""
    number, string = register_of([(b'p1', b'number')], []), register_of([(b'p1', b'string')], [])
    full, more = sized(props=range(64)), sized(props=range(64, 66))
    mixed = register_of([(b'p1', b'number'), (b'q', b'page')], [])
    forms = [encode(one) for one in (number, string, full, more, mixed)]
    bad = [NONE, b'', HELD_SAMPLE[:-1], HELD_SAMPLE[:SIZE - 1] + b'\1', b'\1' + bytes(SIZE - 1)]
    for length in LENGTHS:
        for first in (HELD_SAMPLE, HELD_SAMPLE + b'x', EMPTY, *forms, *bad):
            yield from (join_case(first, second, length) for second in (HELD_SAMPLE, EMPTY + b'xyz', *forms, *bad[:3]))


def big_joins():
    """Registers of many pages and values of all kinds, some of them in both."""
    rng = random.Random('joins')
    for pages, forms in ((20, 3), (60, 6), (100, 8), (120, 8), (150, 12), (250, 3), (256, 5)):
        first, second = made(rng, pages, forms), made(rng, pages, forms)
        for other in (second, fitted(second, first.kinds), first):
            yield from both_ways(first, other)


def fitted(register, kinds):
    """The register with these kinds too, without the values that do not fit them."""
    pages = [page_of(*page[:3], [one for one in page.held if kinds.get(one[0], one[1][0]) == one[1][0]]) for page in register.pages]
    return register_of({**register.kinds, **kinds}.items(), pages)


def odd():
    """Forms that are those of a register or miss it by one thing, in every call."""
    text = b'[[Category:a]] OR [[a]] OR [[b]]'
    query = query_form.held_query(query_call(register_call(b'')[1], text)[1])
    for _, _, held in odd_forms():
        yield ask_case(query, held, 256)
        yield query_case(held, text, query_form.SIZE)
        yield query_case(held, b'[[S::a]] [[N::>7]] [[L::T:a]] [[B::1]]', query_form.SIZE)
        yield from (join_case(*pair, SIZE) for pair in ((held, EMPTY), (EMPTY, held), (held, HELD_SAMPLE), (HELD_SAMPLE, held), (held, held)))


def used_bytes(held):
    """The bytes of the rows that a form has."""
    props, pages, terms, texts = (int.from_bytes(held[at:at + 2], 'little') for at in (0, 2, 4, 6))
    forms, end = (int.from_bytes(held[at:at + 2], 'little') for at in (STARTS + 2 * pages, TEXTS + 2 * texts))
    rows = ((0, 8), (PROPS, 3 * props), (PAGES, 2 * pages), (STARTS, 2 * pages + 2), (FORMS, 2 * forms), (TERMS, 9 * terms), (TEXTS, 2 * texts + 2), (BYTES, end))
    return {at for start, size in rows for at in range(start, start + size)}


def edits_of(rng, held, step, values):
    """Each byte of a row changed to a few values, and every step-th byte behind the rows, which is the form of nothing."""
    used = used_bytes(held)
    for at in range(SIZE):
        if at in used:
            near = {held[at] ^ 1, (held[at] + 1) % 256, (held[at] - 1) % 256, rng.randrange(256), 0, 255} - {held[at]}
            yield from ((at, byte, True) for byte in sorted(near)[:values])
        elif at % step == 0:
            yield at, rng.randrange(1, 256), at % (step * 64) == 0


def edit_cases(held_query, text, held, edits):
    for start in range(0, len(edits), 4000):
        yield edit_case(held_query, text, held, edits[start:start + 4000])


def all_edits_of(held):
    """Each byte of a row changed to every other value."""
    return [(at, byte, True) for at in sorted(used_bytes(held)) for byte in range(256) if byte != held[at]]


def single_bytes():
    rng = random.Random('single bytes')
    _, both = joined(register_call(SAMPLE)[1], register_call(cases.TABLE.encode())[1])
    one_page = held_register(b'(page "T" "a")\n')
    for held, step, values in ((HELD_SAMPLE, 1, 5), (encode(both), 7, 2), (encode(made(rng, 30, 4)), 97, 1), (EMPTY, 13, 3), (one_page, 11, 5)):
        yield from edit_cases(form_of(ALL_NODES), b'[[Crates::>12]] OR [[Lot::A7]]', held, list(edits_of(rng, held, step, values)))
    text = b'[[Category:a]] OR [[a]] OR [[b]]'  # of two pages, all kinds
    query = query_form.held_query(query_call(register_call(b'')[1], text)[1])
    yield from edit_cases(query, b'[[S::a]] OR [[N::>7]] OR [[L::T:a]] OR [[B::1]]', laid(), all_edits_of(laid()))
    accented = held_register(b'(prop "\xc3\xbc" page)\n(page "\xc3\x96" "\xc5\xbfa" (cat "\xc3\xa9") (val "\xc3\xbc" "\xc3\x96:\xc5\xbfa"))\n')
    yield from edit_cases(query, b'[[u\xcc\x88::\xc3\x96:\xc5\xbfa]]', accented, all_edits_of(accented))


def made_joins():
    for some in (limits, byte_limit, refusals, big_joins, odd, single_bytes):
        yield from some()
