"""Compares the plain implementation in bench/ with the separate evaluator: `compare.py LIBRARY SEED COUNT`.

Registers, trees, queries and joins: numbers and forms. Asks: numbers and marks. Damaged forms: whether they are forms."""
import random
import sys

from library import Library  # finds the evaluator
import cases
import decimal_forms
import generate
import link_nodes
import query_form
import spellings
import tree_form
from ask import ask
from damage import damaged, damaged_tree, form_of_broken
from damaged_queries import damaged_query
from form import SIZE, decode, encode
from forms_test import Tally, sized
from join import join
from odd_forms import odd_forms
from odd_queries import odd_queries
from odd_trees import odd_trees
from query import fit_call, query_call
from reading import read_query
from register import page_of, register_call, register_of
from respell import typed


def compare_register(tally, library, text):
    """The register and its form, None where the text is refused."""
    number, register = register_call(text)
    held = encode(register) if number == 0 else None
    tally.want(f'register {text[:100]}', library.register(text, SIZE + len(text) % 3) == (number, held))
    tally.want(f'register, short {text[:100]}', library.register(text, SIZE - 1) == (number or 8, None))
    return register, held


def compare_read(tally, library, text):
    """The tree, and its form."""
    number, query = read_query(text)
    tree = tree_form.encode(query) if number == 0 else None
    tally.want(f'read {text[:100]}', library.read(text, tree_form.SIZE + len(text) % 3) == (number, tree))
    tally.want(f'read, short {text[:100]}', library.read(text, tree_form.SIZE - 1) == (number or 33, None))
    return tree


def compare_fit(tally, library, tree, register, held, label):
    """Any bytes as a tree."""
    number, core = fit_call(tree_form.decode(tree), register)
    wanted = (number, query_form.held_query(core) if core else None)
    tally.want(f'fit {label}', library.fit(tree, held) == wanted)
    tally.want(f'fit, short {label}', library.fit(tree, held, query_form.SIZE - 1) == (number or 20, None))
    return wanted


def compare_query(tally, library, register, held, text):
    """The core query and its form, by both ways."""
    number, core = query_call(register, text)
    made = query_form.held_query(core) if core else None
    tally.want(f'query {text[:100]}', library.query(held, text) == (number, made))
    tally.want(f'query, short {text[:100]}', library.query(held, text, query_form.SIZE - 1) == (number or 20, None))
    tree = compare_read(tally, library, text)
    if tree:
        tally.want(f'two ways {text[:100]}', compare_fit(tally, library, tree, register, held, text[:100]) == (number, made))
    return core, made, tree


def compare_trees(tally, library, rng, tree, register, held, damages, label):
    for number in range(damages):
        compare_fit(tally, library, damaged_tree(rng, tree), register, held, f'{label} damaged tree {number}')


def compare_ask(tally, library, core, made, register, held, label):
    number, marks = ask(core, register)
    pages = len(register.pages)
    count, wanted = (-number, None) if number else (sum(marks), marks)
    tally.want(f'ask {label}', library.ask(made, held, pages) == (number, count, wanted))
    if pages > 0:
        tally.want(f'ask, short {label}', library.ask(made, held, pages, pages - 1)[0] == (number or 24))


def compare_join(tally, library, first, second, label):
    """Takes registers; compares the join both ways."""
    forms_of = encode(first), encode(second)
    for registers, held in (((first, second), forms_of), ((second, first), forms_of[::-1])):
        found = join(*registers)
        wanted = (found, None) if isinstance(found, int) else (0, encode(found))
        tally.want(f'join {label}', library.join(*held) == wanted)
        tally.want(f'join, short {label}', library.join(*held, SIZE - 1) == (wanted[0] or 8, None))


def compare_form(tally, library, held, other, label):
    """A form that is perhaps none, alone and in each call."""
    register = decode(held)
    tally.want(f'form {label}', library.is_register(held) == (register is not None))
    if register is not None:
        tally.want(f'joined {label}', library.join(held, bytes(SIZE)) == (0, encode(register)))
    else:
        tally.want(f'11 {label}', library.query(held, b'')[0] == 11 and library.fit(b'', held)[0] == 11)
        tally.want(f'22 {label}', library.join(held, other)[0] == 22 and library.join(other, held)[0] == 22)


def compare_held_query(tally, library, query, register, held, label):
    """Bytes that are perhaps a held query."""
    number, marks = ask(query_form.read_query(query), register)
    found = library.ask(query, held, len(register.pages))
    tally.want(f'held query {label}', found == (number, -number if number else sum(marks), marks))


def compare_case(tally, library, rng, texts, damages, label):
    first, query, second = texts
    (one, held_one), (two, held_two) = (compare_register(tally, library, text) for text in (first, second))
    core, made, tree = compare_query(tally, library, one, held_one, query) if one else (None, None, None)
    if tree:
        compare_trees(tally, library, rng, tree, one, held_one, damages, label)
    for register, held in ((one, held_one), (two, held_two)):
        if core and register:
            compare_ask(tally, library, core, made, register, held, f'{label} {query[:100]}')
            compare_held_query(tally, library, damaged_query(rng, made), register, held, f'{label} damaged')
    if one and two:
        compare_join(tally, library, one, two, label)
        for number in range(damages):
            compare_form(tally, library, damaged(rng, held_one), held_two, f'{label} damage {number}')
        compare_form(tally, library, form_of_broken(rng, one), held_two, f'{label} broken')
    if core and two:
        bad = damaged(rng, held_two)
        wanted = ask(core, decode(bad))[0]
        tally.want(f'22 {label}', wanted == 0 or library.ask(made, bad, 0)[0] == wanted)


def tree_edges(tally, library):
    """Trees that are written by hand."""
    register = register_of([(b'P', b'page'), (b'Q', b'page'), (b'R s', b'string')], [])
    for label, is_tree, tree in odd_trees():
        found = compare_fit(tally, library, tree, register, encode(register), label)
        tally.want(f'{label} is stated', (found[0] != 34) == is_tree)


def link_edges(tally, library):
    """Link nodes: held queries that are written by hand, and every comparator, asked of links to pages and to none."""
    registers = [(register, encode(register)) for register in link_nodes.registers()]
    stated = [(label, core is not None, query) for label, core, query in odd_queries()]
    stated += [(f'{nodes} nodes', nodes == 256, query) for nodes, query in link_nodes.longest()]
    for label, is_query, query in stated:
        tally.want(f'{label} is stated', (library.ask(query, bytes(SIZE), 0)[0] != 21) == is_query)
        compare_held_query(tally, library, query, *registers[0], label)
    for core in link_nodes.links():
        for register, held in registers:
            compare_ask(tally, library, core, query_form.held_query(core), register, held, core)


def name_edges(tally, library):
    """Names as typed and as held, by themselves and in every place."""
    kinds = [(b'P', b'page'), (b'S', b'string'), ('\u00e4'.encode(), b'number')]
    register = register_of(kinds, [page_of(b'', '\u00e4'.encode(), [], [(b'S', (b'string', 'a\u0308'.encode()))])])
    held, rng = encode(register), random.Random('names')
    for name in spellings.all_names():
        compare_read(tally, library, b'[[%s]]' % name)
        compare_fit(tally, library, next(spellings.trees(name)), register, held, name)
    for name in spellings.SOME:
        for tree in spellings.trees(name):
            compare_fit(tally, library, tree, register, held, name)
        for query in spellings.queries(name):
            compare_held_query(tally, library, query, register, held, name)
        for broken in spellings.registers(name):
            compare_form(tally, library, encode(broken), held, name)
        for text in spellings.texts(name, typed(rng, name)):
            compare_register(tally, library, text)
        for body in (b'[[%s:+]]', b'[[Category:%s]]', b'[[!%s:a]]', b'[[%s::+]]', b'[[P.%s::1]]', b'[[P::%s]]', b'[[P::>%s: b]]', b'[[S::%s]]'):
            compare_query(tally, library, register, held, body % name)


def typed_numbers(tally, library):
    """Numbers as texts, in a register and in a query."""
    register = register_of([(b'N', b'number')], [])
    held = encode(register)
    for number, texts in decimal_forms.READ.items():
        for text in texts.split():
            found = library.register(decimal_forms.text_with(text)), library.query(held, b'[[N::%s]]' % text)
            wanted = decimal_forms.form_of_codes(decimal_forms.BIAS + number), decimal_forms.query_of_code(decimal_forms.BIAS + number)
            tally.want(f'{text} is stated', found == tuple((0, form) for form in wanted))
    for text in decimal_forms.UNFIT:
        tally.want(f'{text} is stated', library.register(decimal_forms.text_with(text))[0] == 6 and library.query(held, b'[[N::%s]]' % text)[0] == 18)
    for text in decimal_forms.typed():
        compare_register(tally, library, decimal_forms.text_with(text))
        compare_query(tally, library, register, held, b'[[N::%s]]' % text)


def asked_numbers(tally, library, rng):
    """Each comparator with some numbers, asked of a page for each number, and chains to these."""
    register, held = compare_register(tally, library, decimal_forms.text_of_pages())
    for number in {*decimal_forms.READ, *rng.sample(decimal_forms.NUMBERS, 15)}:
        for comparator, stands in decimal_forms.COMPARATORS.items():
            query = b'[[N::%s%s]]' % (comparator, rng.choice(decimal_forms.spellings(number)))
            core, made, _ = compare_query(tally, library, register, held, query)
            compare_ask(tally, library, core, made, register, held, query)
            wanted = [stands(one, number) for one in decimal_forms.NUMBERS] + [False]
            tally.want(f'{query} is stated', library.ask(made, held, len(wanted))[1:] == (sum(wanted), wanted))
    for query in decimal_forms.chains():
        core, made, _ = compare_query(tally, library, register, held, query)
        if core:
            compare_ask(tally, library, core, made, register, held, query)


def held_numbers(tally, library, rng):
    """Forms by the codes of their numbers, and by the bytes that these have at their shortest; repeats, and joins."""
    for label, is_form, held in decimal_forms.forms():
        tally.want(f'{label} is stated', library.is_register(held) == is_form)
        compare_form(tally, library, held, bytes(SIZE), label)
    register = register_call(decimal_forms.text_of_pages())[1]
    for label, is_query, query in decimal_forms.queries():
        tally.want(f'{label} is stated', (library.ask(query, bytes(SIZE), 0)[0] != 21) == is_query)
        compare_held_query(tally, library, query, register, encode(register), label)
    filled = decimal_forms.Filled()
    for number in decimal_forms.NUMBERS:
        for total in (32768, 32769):
            held = filled.form(number, total)
            tally.want(f'{total} bytes with {number} thousandths', library.is_register(held) == (total == 32768))
            if number in decimal_forms.READ:
                compare_form(tally, library, held, bytes(SIZE), f'{total} bytes with {number} thousandths')
    for _ in range(4):
        some = [rng.sample(decimal_forms.NUMBERS, count) for count in (len(decimal_forms.NUMBERS), 40)]
        registers = [compare_register(tally, library, decimal_forms.shuffled(rng, numbers))[0] for numbers in some]
        for numbers, one in zip(some, registers):
            tally.want('repeats are stated', len(one.pages[0].held) == len(numbers))
        compare_join(tally, library, *registers, 'numbers')


def number_edges(tally, library):
    rng = random.Random('numbers')
    typed_numbers(tally, library)
    asked_numbers(tally, library, rng)
    held_numbers(tally, library, rng)


def edges(tally, library):
    """Forms that are written by hand, limits of a join and of a form, and registers that no text gives."""
    tree_edges(tally, library)
    link_edges(tally, library)
    name_edges(tally, library)
    number_edges(tally, library)
    for label, is_form, held in odd_forms():
        tally.want(f'{label} is stated', library.is_register(held) == is_form)
        compare_form(tally, library, held, bytes(SIZE), label)
    for name, one, most in (('props', 40, 64), ('pages', 200, 256), ('forms', 1500, 2048)):
        for end in (most, most + 1):
            compare_join(tally, library, sized(**{name: range(one)}), sized(**{name: range(one, end)}), f'{name} {end}')
    categories = [b'c%d' % number for number in range(1024)]
    for count in (1023, 1024):
        first, second = (register_of([], [page_of(b'', name, some, [])]) for name, some in ((b'a', categories + [b'd']), (b'b', categories[:count])))
        compare_join(tally, library, first, second, f'forms by few terms {count}')
    clash = register_of([(b'p1', b'number')], [])
    compare_join(tally, library, sized(props=range(64)), clash, '32')
    compare_join(tally, library, sized(props=range(63)), register_of([(b'p1', b'number'), (b'q', b'page'), (b'r', b'page')], []), '32 and 7')
    for size in (32767, 32768, 32769, 33000):
        held = encode(sized(size=size))
        compare_form(tally, library, held, bytes(SIZE), f'{size} bytes')
    for size in (16000, 32768 - 2 - 5, 32769 - 2 - 5):
        second = register_of([(b'B', b'boolean')], [page_of(b'', b'g0', [], [(b'B', (b'boolean', False))]), page_of(b'', b'h', [], [])])
        compare_join(tally, library, sized(size=size), second, f'{size} bytes')


def main(path, seed, count):
    tally, library = Tally(), Library(path)
    edges(tally, library)
    for number, case in enumerate(cases.cases()):
        rng = random.Random(f'{seed} cases {number}')
        texts = [case.get(name, '').encode('latin-1') for name in ('register', 'query', 'second')]
        compare_case(tally, library, rng, texts, 4, f'case {number}')
    for number, texts in enumerate(generate.cases(f'plain {seed}', int(count))):
        compare_case(tally, library, random.Random(f'{seed} {number}'), texts, 4, f'{seed} {number}')
    for line in library.faults[:20]:
        print(line)
    failed = tally.failed + len(library.faults)
    print(f'{tally.passed} passed, {failed} failed')
    return failed


if __name__ == '__main__':
    sys.exit(main(*sys.argv[1:]) > 0)
