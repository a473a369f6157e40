"""Records for the C host, each with the line that it has to print by the separate evaluator.

A made record is (bytes, line, doubts). A doubt is where the evaluator differs from itself or from what is stated."""
import os
import sys
import zlib
from functools import lru_cache

sys.path.insert(0, os.path.join(os.path.dirname(os.path.abspath(__file__)), '..', 'evaluator'))

import query_form
import tree_form
from ask import ask, direct
from form import BYTES, FORMS, PAGES, PROPS, SIZE, STARTS, TERMS, TEXTS, decode, encode
from join import join
from query import fit_call, query_call
from reading import read_query
from register import register_call

read_register = lru_cache(64)(decode)
REGIONS = (0, PROPS, PAGES, STARTS, FORMS, TERMS, TEXTS, BYTES)
TREE_REGIONS, QUERY_REGIONS = (0, tree_form.STRINGS), (0, query_form.HEAP)


def part(content):
    content = content.to_bytes(4, 'little') if isinstance(content, int) else content
    return len(content).to_bytes(4, 'little') + content


def record(letter, *parts):
    return letter + b''.join(map(part, parts))


def without_zeros(content):
    """Up to the last byte that is not 0: the same as rstrip, in a tenth of the time."""
    return content[:(int.from_bytes(content, 'little').bit_length() + 7) // 8]


def packed(held, regions=REGIONS):
    """A held register, or what is lent as a held form, without the zeros at the end of each region."""
    out = [len(held).to_bytes(4, 'little')]
    for start, end in zip(regions, (*regions[1:], len(held))):
        content = without_zeros(held[start:end])
        if content:
            out.append(start.to_bytes(2, 'little') + len(content).to_bytes(2, 'little') + content)
    return b''.join(out)


def packed_tree(tree):
    return packed(tree, TREE_REGIONS)


def packed_query(held_query):
    return packed(held_query, QUERY_REGIONS)


def form_or_none(core):
    """The packed form of a core query, if there is one."""
    return packed_query(query_form.held_query(core)) if core else b''


def tree_or_none(query):
    return packed_tree(tree_form.encode(query)) if query else b''


@lru_cache(8)
def held_register(text):
    """The form of an accepted text."""
    return encode(register_call(text)[1])


def answer(number, marks):
    return [str(-number), '-'] if number else [str(sum(marks)), ''.join(map(str, marks)) or '-']


def run(core, query, register, doubts):
    """The words of an ask, whose marks are those of the direct meaning too."""
    number, marks = ask(core, register)
    if number == 0 and marks != direct(query, register):
        doubts.append('the direct meaning differs')
    return answer(number, marks)


def joined(first, second):
    """(0, the register of both) or (the refusal, None)."""
    if first is None or second is None:
        return 22, None
    found = join(first, second)
    return (found, None) if isinstance(found, int) else (0, found)


def run_on_both(core, query, register, other, both, doubts):
    """The query made for a join, asked of it and of the two, and the query of the first asked of it: no run has a mismatch."""
    number, core_of_both = query_call(both, query)
    runs = [(core_of_both, both), (core, both), (core_of_both, register), (core_of_both, other)]
    words = [word for one, asked in runs if one for word in run(one, query, asked, doubts)]
    if any(word.startswith('-') and word != '-' for word in words):
        doubts.append('a run on a join is refused')
    return [str(-number), *words]


def case(first, query, second, forgeries=0):
    """The calls one after the other: the query made by both ways and asked of both registers, then made for their join and asked of that."""
    (one, register), (two, other) = register_call(first), register_call(second)
    words, doubts = [str(-one), str(-two)], []
    number, core = query_call(register, query) if register else (None, None)
    if register:
        words.append(str(-number))
    for run_on in (register, other):
        if core and run_on:
            words += run(core, query, run_on, doubts)
    refusal, both = joined(register, other)
    if register and other:
        words += ['join', str(-refusal)]
    if both:
        words += run_on_both(core, query, register, other, both, doubts)
    refusal, tree = read_query(query)
    words += ['read', str(-refusal)]
    forms = [packed(held_register(text)) if found else b'' for text, found in ((first, register), (second, other))]
    forms.append(packed(encode(both)) if both else b'')
    pages = [len(one.pages) if one else 0 for one in (register, other, both)]
    made = [tree_or_none(tree), form_or_none(core)]
    return record(b'C', first, query, second, *forms, *pages, *made, forgeries), ' '.join(words), doubts


def ask_case(held_query, held_register, length):
    """An ask on any bytes, with the number that docs/LAYOUT.md and the table give."""
    core, register = query_form.read_query(held_query), read_register(held_register)
    number, marks = ask(core, register)
    pages = len(register.pages) if register else 0
    if number == 0 and length < pages:
        number, marks = 24, None
    return record(b'A', packed_query(held_query), packed(held_register), length, pages), ' ' + ' '.join(answer(number, marks)), []


def query_case(held_register, text, length):
    number, _ = query_call(read_register(held_register), text)
    number = number or (20 if length < query_form.SIZE else 0)
    return record(b'Q', packed(held_register), text, length), str(-number), []


def register_case(text, length):
    number = register_call(text)[0] or (8 if length < SIZE else 0)
    return record(b'R', text, length), str(-number), []


def join_case(first, second, length):
    """A join of any bytes."""
    number, both = joined(read_register(first), read_register(second))
    number = number or (8 if length < SIZE else 0)
    return record(b'J', packed(first), packed(second), length, b'' if number else packed(encode(both))), str(-number), []


def edit_case(held_query, text, held, edits):
    """Each of the edits (where, byte, whether all calls are made on a form of nothing too) made on a held register."""
    core, words = query_form.read_query(held_query), []
    for at, byte, thorough in edits:
        register = decode(held[:at] + bytes([byte]) + held[at + 1:]) if thorough else None
        if register:
            words += [f'{at}:{byte}', *answer(*ask(core, register)), str(-query_call(register, text)[0]), '0', '0']
    content = b''.join(at.to_bytes(2, 'little') + bytes([byte, thorough]) for at, byte, thorough in edits)
    return record(b'D', packed_query(held_query), text, packed(held), content), ''.join(' ' + word for word in words), []


def read_case(text, length):
    number, query = read_query(text)
    number = number or (33 if length < tree_form.SIZE else 0)
    return record(b'T', text, length, b'' if number else tree_or_none(query)), str(-number), []


def fit_case(tree, held_register, length):
    """Any bytes as a tree and as a register."""
    number, core = fit_call(tree_form.decode(tree), read_register(held_register))
    number = number or (20 if length < query_form.SIZE else 0)
    return record(b'F', packed_tree(tree), packed(held_register), length, b'' if number else form_or_none(core)), str(-number), []


def tree_edit_case(tree, held_register, edits):
    """Each of the edits (where, byte) made on a held tree; a held query is told by its checksum."""
    register, words = read_register(held_register), []
    for at, byte in edits:
        number, core = fit_call(tree_form.decode(tree[:at] + bytes([byte]) + tree[at + 1:]), register)
        if number != 34:
            words += [f'{at}:{byte}', str(-number)] + ([] if number else [f'{zlib.crc32(query_form.held_query(core)):08x}'])
    content = b''.join(at.to_bytes(2, 'little') + bytes([byte, 0]) for at, byte in edits)
    return record(b'E', packed_tree(tree), packed(held_register), content), ''.join(' ' + word for word in words), []
