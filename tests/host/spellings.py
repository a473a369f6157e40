"""Records of names in two spellings (request 4) that are made and not drawn, and held forms of drawn cases with a name that is not composed."""
from itertools import product

from records import ask_case, case, fit_case, held_register, join_case, query_case, read_case, register_case  # finds the evaluator
import query_form
import tree_form
from accents import BAKERIES_TYPED, LONG, WAYS, bakeries, held_names, typed, utf8
from core import Article, Category, Existence, InNamespace, Link, Subquery, Value
from damage import uncomposed, uncomposed_register
from form import SIZE, encode
from query import query_call
from reading import read_query
from register import page_of, register_call, register_of
from values import MARKS

NO_MARKS = '\u0305\u0309\u030d\u0326\u0329\u0340\u0345'  # beside the thirteen
LETTERS = [chr(code) for code in (*range(32, 127), *range(0xA0, 0x190))]
ACCENTED = [letter for letter in LETTERS if letter < '\u0180' and typed('NFD', letter) != utf8(letter)]
EVERYWHERE = '(prop "{0}" page)\n(page "{0}" "{0}" (cat "{0}") (val "{0}" "{0}"))\n(page "" "{0}" (val "{0}" "{0}"))\n'
QUERIES = ('[[{0}]]', '[[>{0}||!{0}:{0}]]', '[[{0}:+]]', '[[Category:{0}||{0}]]', '[[{0}::{0}||!{0}]]', '[[{0}.{0}::+]]',
           '[[{0}::<q>[[{0}:{0}]]</q>]]')


def wanting(made, refusal):
    """A record, in doubt where the evaluator does not refuse it so, or refuses it where that is 0."""
    content, line, doubts = made
    kept = max(0, -int(line.split()[0])) == refusal
    return content, line, doubts + ([] if kept else [f'{refusal} is stated'])


def text_of(way, text):
    return typed(way, text).encode('latin-1')


# Texts.

def letters_and_marks():
    """Every letter with every mark, and every two bytes that may begin or end a letter of a name."""
    names = [utf8(letter + mark).encode('latin-1') for letter in LETTERS for mark in [*sorted(MARKS), *NO_MARKS]]
    names += [b'a' + bytes(pair) for pair in product(range(0xC0, 0xE0), range(256))]
    names += [b'a' + bytes(pair) for pair in product([*range(0x80, 0xC0), *range(0xE0, 0x100)], (0x61, 0x80, 0x88, 0xA4, 0xBF, 0xCC))]
    yield from (read_case(b'[[%s]]' % name, tree_form.SIZE) for name in names)


def every_accent(way):
    return b''.join(b'(page "" "%s" (cat "x%s"))\n' % (text_of(way, letter), text_of(way, letter)) for letter in ACCENTED)


def one_form(records, forms):
    """Records, in doubt where the forms are not one."""
    doubts = [] if len({*forms}) == 1 else ['two spellings, two forms']
    return [(content, line, more + doubts) for content, line, more in records]


def everywhere():
    """A name in every place of a register and of a query, each typed in both ways: one register, and one held query."""
    for name in ('é', 'Bäckerei', LONG):
        registers = [text_of(way, EVERYWHERE.format(name)) for way in WAYS]
        register = register_call(registers[0])[1]
        for query in QUERIES:
            queries = [text_of(way, query.format(name)) for way in WAYS]
            forms = [query_form.held_query(query_call(register, one)[1]) for one in queries]
            yield from one_form([case(*texts, forgeries=1) for texts in product(registers, queries, registers)], forms)
        yield from one_form([join_case(held_register(registers[0]), held_register(registers[1]), SIZE)], map(held_register, registers))


def one_register():
    """Registers typed in several ways, with repeats that differ in spelling only."""
    ways, query = [bakeries(ways).encode('latin-1') for ways in BAKERIES_TYPED], text_of('NFD', '[[Bäckerei]]')
    yield from one_form([case(one, query, other) for one, other in product(ways, ways)], map(held_register, ways))
    ways, query = [every_accent(way) for way in WAYS], text_of('NFD', '[[Category:xÿ]]')
    yield from one_form([case(one, query, other) for one, other in product(ways, ways)], map(held_register, ways))
    page = '(prop "P" page)\n(page "" "a"{})\n'
    for form in (' (cat "é")', ' (val "P" "é")', ' (val "P" "é : é")', ' (val "P" ":é")'):
        texts = [page.format(''.join(forms)).encode('latin-1') for forms in product(*[[typed(way, form) for way in WAYS]] * 2)]
        yield from one_form([register_case(text, SIZE) for text in texts], map(held_register, texts))


# Limits: repeats count as typed, and bytes as composed.

def long_name(number):
    """43 bytes, 64 as typed with marks; another for each number."""
    return ''.join('äö'[number >> bit & 1] for bit in range(21)) + 'n'


def limits():
    for count in (1024, 1025):
        text = '(page "" "a"' + typed('NFC', ' (cat "é")') * 1024 + typed('NFD', ' (cat "é")') * count + ')\n'
        yield wanting(register_case(text.encode('latin-1'), SIZE), 0 if count == 1024 else 7)
    page, most = '(page "" "g0"%s)\n', (32768 - len('g0')) // 43
    for more, refusal in (('', 0), (' (cat "z")', 7)):
        names = [text_of('NFD', page % (''.join(f' (cat "{long_name(at)}")' for at in some) + end))
                 for some, end in ((range(most // 2), ''), (range(most // 2, most), more))]
        yield wanting(join_case(*map(held_register, names), SIZE), refusal)
        yield case(names[0], text_of('NFD', f'[[Category:{long_name(1)}]]'), names[1])


# Held forms.

def held_registers():
    """A name in each place of a register: 11 and 22 where it is not composed."""
    query = query_form.held_query(InNamespace(b''))
    for name, kept in held_names():
        pages = [(b'', name, [], []), (name, b'a', [], []), (b'', b'a', [name], []), (b'', b'a', [], [(b'L', (b'page', (b'', name)))])]
        pages += [(b'', b'a', [], [(b'L', (b'page', (name, b'b')))])] if len(name) < 63 else []
        made = [register_of([(b'L', b'page')], [page_of(*page)]) for page in pages] + [register_of([(name, b'page')], [])]
        for held in map(encode, made):
            yield wanting(ask_case(query, held, 256), 0 if kept else 22)
            yield wanting(query_case(held, b'[[a]]', query_form.SIZE), 0 if kept else 11)
            yield wanting(join_case(held, bytes(SIZE), SIZE), 0 if kept else 22)


def held_queries():
    """A name in each place of a held query: 21 where it is not composed. A string may be anything."""
    held = held_register(b'(prop "S" string)\n(page "" "a" (val "S" "a\xcc\x88"))\n')
    for name, kept in held_names():
        for core in (Category(name), InNamespace(name), Existence(name), Subquery(name, InNamespace(b'')), Article('>', name),
                     Value(name, '=', (b'number', 1)), Link(name, b'<', (b'T', b'a')), Link(b'P', b'!', (name, b'a')), Link(b'P', b'', (None, name))):
            yield wanting(ask_case(query_form.held_query(core), held, 256), 0 if kept else 21)
        yield wanting(ask_case(query_form.held_query(Value(b'S', '<', (b'string', name))), held, 256), 0 if len(name) <= 64 else 21)
    accented = text_of('NFC', 'aéſ')
    for form in map(query_form.held_query, (Article('!=', accented), Link(b'\xc3\xa9', b'!', (accented, accented)))):
        for at, byte in product(range(query_form.HEAP, len(form.rstrip(b'\0'))), range(256)):
            yield ask_case(form[:at] + bytes([byte]) + form[at + 1:], held, 256)


def uncomposed_forms(rng, first, query):
    """(refusal, record): the forms of an accepted case, each with a name that is not composed."""
    register = register_call(first)[1]
    core = query_call(register, query)[1] if register else None
    if core is None:
        return
    surface = read_query(query)[1]
    held, made, tree = held_register(first), query_form.held_query(core), tree_form.encode(surface)
    bad, bad_core, bad_nodes = uncomposed_register(rng, register), uncomposed(rng, core), uncomposed(rng, tree_form.query_nodes(surface))
    if bad:
        yield from ((22, ask_case(made, bad, 256)), (11, query_case(bad, query, query_form.SIZE)), (11, fit_case(tree, bad, query_form.SIZE)))
        yield from ((22, join_case(*pair, SIZE)) for pair in ((bad, held), (held, bad)))
    if bad_core:
        yield 21, ask_case(query_form.held_query(bad_core), held, 256)
    if bad_nodes:
        yield 34, fit_case(tree_form.lay(bad_nodes), held, query_form.SIZE)


def made_spellings():
    for some in (letters_and_marks, everywhere, one_register, limits, held_registers, held_queries):
        yield from some()
