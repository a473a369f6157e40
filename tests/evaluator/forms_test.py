"""Tests the held registers and the joins of this evaluator: `forms_test.py [SEED]` ends with how many passed and failed."""
import random
import sys

import accents
import generate
from cases import SAMPLE, TABLE
from decimals import ASCENDING, MOST, SHORTEST, repeats
from form import BYTES, FORMS, PAGES, PROPS, SIZE, STARTS, TERMS, TEXTS, decode, encode
from join import join
from odd_forms import odd_forms
from register import bytes_in, is_register, listed, page_of, register_call, register_of
from respell import respelled, spelled
from values import read_value, spelling

EMPTY = register_of([], [])
ROUNDS, JOINS = 500, 500


class Tally:
    def __init__(self):
        self.passed = self.failed = 0

    def want(self, label, kept):
        self.passed, self.failed = self.passed + bool(kept), self.failed + (not kept)
        if not kept and self.failed <= 20:
            print(label)


def same(one, other):
    return one is not None and other is not None and listed(one) == listed(other)


def register_from(text):
    number, register = register_call(text.encode('latin-1'))
    assert number == 0
    return register


# The layout, row by row.

def laid(held, *rows):
    """The bytes, given as (where, bytes) and 0 elsewhere."""
    out = bytearray(SIZE)
    for at, content in rows:
        out[at:at + len(content)] = content
    return bytes(out) == held


def by_hand(tally):
    """Forms that are written here by hand."""
    tally.want('the empty register', encode(EMPTY) == bytes(SIZE))
    one = register_from('(page "T" "a" (val "N" "-3.1") (cat "b") (val "S" "a") (val "L" "T : a") (val "N" "12.5"))\n'
                        '(prop "S" string)\n(prop "N" number)\n(page "" "a" (cat "a") (cat "b"))\n(prop "L" page)\n')
    minus, plus = ((10 ** 18 + n).to_bytes(8, 'little') for n in (-3100, 12500))  # 12.5 is first: its low byte is 212, that of -3.1 is 228
    tally.want('two pages', laid(
        encode(one),
        (0, bytes([3, 0, 2, 0, 6, 0, 6, 0])),
        (PROPS, bytes([3, 2, 0, 1, 1, 0, 0, 0, 0])),
        (PAGES, bytes([5, 0, 3, 0])),
        (STARTS, bytes([0, 0, 5, 0, 7, 0])),
        (FORMS, bytes([1, 0, 4, 0, 2, 0, 5, 0, 3, 0, 0, 0, 1, 0])),
        (TERMS, bytes([0, 3, 0, 0, 0, 0, 0, 0, 0, 0, 4, 0, 0, 0, 0, 0, 0, 0, 1, 3, 0, 0, 0, 0, 0, 0, 0])
         + b'\2' + plus + b'\2' + minus + bytes([3, 5, 0, 0, 0, 0, 0, 0, 0])),
        (TEXTS, bytes([0, 0, 2, 0, 4, 0, 6, 0, 8, 0, 10, 0, 13, 0])),
        (BYTES, b'\0L\0N\0S\0a\0b\1Ta')))


def stated(tally):
    for label, is_form, held in odd_forms():
        found = decode(held)
        tally.want(f'{label}: not {is_form}', (found is not None) == is_form and (found is None or encode(found) == held[:SIZE]))


# Round trips.

def drawn(seed, count):
    """(random, accepted text, its register)."""
    for number, texts in enumerate(generate.cases(f'forms {seed}', count)):
        for text in (texts[0], texts[2]):
            refusal, register = register_call(text)
            if refusal == 0:
                yield random.Random(f'{seed} {number}'), text, register


def round_trips(tally, seed):
    for rng, text, register in drawn(seed, ROUNDS):
        held, other = encode(register), respelled(rng, text)
        tally.want(f'no round trip: {text[:200]}', len(held) == SIZE and is_register(register) and same(decode(held), register))
        number, again = register_call(other)
        tally.want(f'respelled as {number}: {other[:200]}', encode(again) == held if number == 0 else number in (1, 7))


def spellings(tally):
    """Names typed in two ways are one, and strings two (request 4)."""
    tally.want('two spellings, two forms', len({encode(register_from(accents.bakeries(ways))) for ways in accents.BAKERIES_TYPED}) == 1)
    one, other = (accents.typed(way, 'é') for way in accents.WAYS)
    for kind, count in (('page', 1), ('string', 2)):
        found = register_from(f'(prop "{one}" {kind})\n(page "" "a" (cat "{one}") (cat "{other}") (val "{one}" "{one}") (val "{other}" "{other}"))\n')
        page = decode(encode(found)).pages[0]
        tally.want(f'a {kind} in two spellings', len(page.held) == count and page.categories == [one.encode('latin-1')])


def number_in(text):
    kind, number = read_value(b'number', text.encode())
    return number


def numbers(tally, seed):
    """Spellings of a number are one, of two numbers two, in the order of thousandths, and the shortest is the one that counts (request 7)."""
    for number, text in SHORTEST:
        tally.want(f'shortest {text}', spelling((b'number', number)) == text.encode() and number_in(text) == number)
    rows = [{*map(number_in, row)} for row in ASCENDING]
    found = [min(row) for row in rows]
    tally.want('not ascending', all(len(row) == 1 for row in rows) and all(one < other for one, other in zip(found, found[1:])))
    tally.want('from end to end', found[0] == -MOST and found[-1] == MOST)
    rng = random.Random(f'numbers {seed}')
    for number in (rng.randint(-most, most) for most in (5, 1005, 10 ** 6, MOST) for _ in range(100)):
        text = spelled(rng, (b'number', number)).decode()
        tally.want(f'{number} as {text}', number_in(text) == number and len(spelling((b'number', number))) <= len(text))
    tally.want('repeats by value', encode(register_from(repeats(2048))) == encode(register_from(repeats(1))))


def lengths(tally):
    held = encode(register_from(SAMPLE))
    tally.want('one byte short', decode(held[:-1]) is None and decode(b'') is None)
    tally.want('one byte more', same(decode(held + b'x'), register_from(SAMPLE)))
    tally.want('all 255', decode(b'\xff' * SIZE) is None)


# Changed bytes: the form of nothing, or of another register.

def changed(tally, held, at, byte):
    bad = held[:at] + bytes([byte]) + held[at + 1:]
    found = decode(bad)
    tally.want(f'byte {at} changed to {byte}', found is None or encode(found) == bad)
    return found is not None


def every_byte(tally, rng, register, step):
    """Every step-th byte changed once, those that are not 0 twice, and some to every other value."""
    held, others = encode(register), 0
    for at in range(0, SIZE, step):
        for _ in range(2 if held[at] else 1):
            others += changed(tally, held, at, held[at] ^ rng.randrange(1, 256))
    for at in (0, 2, 4, 6, PROPS, PROPS + 1, PAGES, STARTS + 2, FORMS, TERMS, TERMS + 1, TEXTS + 2, BYTES, BYTES + 1):
        for byte in {*range(256)} - {held[at]}:
            others += changed(tally, held, at, byte)
    tally.want('no changed byte gives another register', others > 0)


def made(rng, count, forms):
    """A register of many values of all kinds."""
    kinds = [b'page', b'number', b'boolean', b'string']
    props, pages = [(b'p%d' % i, rng.choice(kinds)) for i in range(rng.randint(1, 64))], []
    for place in range(count):
        held = []
        for _ in range(forms):
            prop, kind = rng.choice(props)
            n = rng.randrange(600)
            held.append((prop, (kind, {b'page': (b'', b'x%d' % n), b'number': 125 * n - 37500, b'boolean': n % 2 == 0, b'string': b'y%d' % n}[kind])))
        pages.append(page_of(rng.choice([b'', b'T']), b'x%d' % place, [b'c%d' % rng.randrange(50) for _ in range(2)], held))
    return register_of(props, pages)


# Joins.

def is_joined(one, first, second):
    """What request 9 says of the joined register, said once more."""
    def before(all_of, some):
        return all_of[:len(some)] == some

    pages = [page[:2] for page in one.pages]
    kept = before(list(one.kinds), list(first.kinds)) and before(pages, [page[:2] for page in first.pages])
    kept = kept and one.kinds == {**first.kinds, **second.kinds} and set(pages) == {*first.places, *second.places}
    for register in (first, second):
        for page in register.pages:
            found = one.pages[one.places[page[:2]]]
            kept = kept and {*page.categories} <= {*found.categories} and {*page.held} <= {*found.held}
            kept = kept and (register is second or before(found.categories, page.categories) and before(found.held, page.held))
    forms = sum(len(page.categories) + len(page.held) for page in one.pages)
    wanted = {(page[:2], form) for r in (first, second) for page in r.pages for form in [*page.categories, *page.held]}
    return kept and forms == len(wanted)


def some_joins(tally, seed):
    registers = [register for _, _, register in drawn(f'join {seed}', JOINS)]
    for first, second in zip(registers, registers[1:]):
        found = join(first, second)
        if found == 32:
            tally.want('32 for one kind each', any(second.kinds.get(name, kind) != kind for name, kind in first.kinds.items()))
        elif found != 7:
            tally.want('not joined', is_joined(found, first, second) and is_register(found) and same(decode(encode(found)), found))
        tally.want('the empty register changes something', same(join(first, EMPTY), first) and same(join(EMPTY, first), first))
        tally.want('itself changes something', same(join(first, first), first))


def sized(props=(), pages=(0,), forms=(), size=0):
    """A register with properties, pages and categories of these numbers, its first page filled up to that many bytes."""
    categories = [b'c%d' % number for number in forms]
    left = size - sum(map(len, categories)) - sum(len(b'g%d' % number) for number in pages)
    while left > 0:
        categories.append((b'n%d-' % len(categories)).ljust(left if left < 65 else min(left - 20, 64), b'z'))
        left -= len(categories[-1])
    made_pages = [page_of(b'', b'g%d' % number, [], []) for number in pages]
    if categories:
        made_pages[0] = page_of(*made_pages[0][:2], categories, [])
    return register_of([(b'p%d' % number, b'page') for number in props], made_pages)


def limits(tally):
    """The second register has what the first lacks of the limit, then one more, then only what the first has too."""
    for name, one, most in (('props', 40, 64), ('pages', 200, 256), ('forms', 1500, 2048)):
        first = sized(**{name: range(one)})
        exact, more, repeated = (join(first, sized(**{name: range(*ends)})) for ends in ((one, most), (one, most + 1), (0, one)))
        tally.want(f'{name}: a limit is not where it is', exact != 7 and is_register(exact) and more == 7)
        tally.want(f'{name}: repeats count', same(repeated, first))
    full = register_of([(b'N', b'number')], [page_of(b'', b'a', [b'c%d' % number for number in range(2047)], [(b'N', (b'number', 1500))])])
    for text, fits in (('1.50', True), ('1.05', False)):
        found = join(full, register_from(f'(prop "N" number)\n(page "" "a" (val "N" "{text}"))\n'))
        tally.want(f'{text} beside 1.5', same(found, full) if fits else found == 7)


def byte_limit(tally):
    """Bytes at the limit, for each thing that counts."""
    prop = [(b'B', b'boolean'), (b'L', b'page'), (b'N', b'number'), (b'S', b'string')]
    for label, extra, more in (
            ('category', ([b'12345'], []), 5), ('string', ([], [(b'S', (b'string', b'12345'))]), 5),
            ('false', ([], [(b'B', (b'boolean', False))]), 5), ('true', ([], [(b'B', (b'boolean', True))]), 4),
            *((text, ([], [(b'N', (b'number', number))]), len(text)) for number, text in SHORTEST),
            ('main link', ([], [(b'L', (b'page', (b'', b'abc')))]), 3), ('link', ([], [(b'L', (b'page', (b'T', b'abc')))]), 5)):
        second = register_of(prop, [page_of(b'', b'g0', *extra)])
        for size in (32768 - 4 - more, 32769 - 4 - more):
            first = sized(size=size)
            found = join(first, second)
            tally.want(f'{label}: bytes', bytes_in(first) == size and is_register(first) and (found == 7) == (size + 4 + more > 32768))
    for second, more in ((register_of(prop, []), 4), (register_of([], [page_of(b'Tt', b'abc', [], [])]), 5)):
        for size in (32768 - more, 32769 - more):
            first = sized(size=size)
            tally.want('names: bytes', (join(first, second) == 7) == (size + more > 32768))


def refusals(tally):
    number, string = register_of([(b'A', b'number')], []), register_of([(b'A', b'string')], [])
    full, five = sized(props=range(63)), sized(props=range(100, 105))
    more, clash = (register_of([*one.kinds.items(), *other.kinds.items()], []) for one, other in ((number, full), (string, five)))
    tally.want('32', join(number, string) == 32 and join(string, number) == 32)
    tally.want('32 before 7', join(more, clash) == 32 and join(more, five) == 7)
    tally.want('the same kind', same(join(number, number), number))


def main(words):
    tally, seed = Tally(), words[0] if words else '7'
    rng = random.Random(f'changes {seed}')
    by_hand(tally)
    stated(tally)
    spellings(tally)
    numbers(tally, seed)
    lengths(tally)
    round_trips(tally, seed)
    every_byte(tally, rng, register_from(SAMPLE), 1)
    every_byte(tally, rng, register_from(TABLE), 3)
    every_byte(tally, rng, made(rng, 40, 6), 97)
    some_joins(tally, seed)
    limits(tally)
    byte_limit(tally)
    refusals(tally)
    print(f'{tally.passed} passed, {tally.failed} failed')
    return tally.failed


if __name__ == '__main__':
    sys.exit(main(sys.argv[1:]) > 0)
