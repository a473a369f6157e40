"""Tests the held trees and held queries of this evaluator: `trees_test.py [SEED]` ends with how many passed and failed."""
import random
import sys

import accents
import generate
import query_form
from cases import SAMPLE, cases
from decimals import ASCENDING
from forms_test import Tally, register_from
from odd_queries import odd_queries, written
from odd_trees import odd_trees
from query import fit_call, query_call
from reading import read_query
from register import register_call
from respell_query import respelled_query
from tree_form import COMPARATORS, NODE, NODES, SIZE, STRINGS, decode, encode, spelling
from values import is_name

ROUNDS = 2500


def tree_of(text):
    number, query = read_query(text)
    assert number == 0
    return encode(query)


# The layouts, row by row.

def laid(size, *rows):
    """Bytes given as (where, bytes), and 0 elsewhere."""
    out = bytearray(size)
    for at, content in rows:
        out[at:at + len(content)] = content
    return bytes(out)


def trees_by_hand(tally):
    """Forms that are written here by hand. The first is the example of docs/LAYOUT.md."""
    rows = [8, 0, 0, 0, 0, 1, 5, 0, 1, 0, 0, 1, 9, 0, 0, 0, 0, 0, 2, 0, 2, 0, 0, 0, 10, 0, 2, 0, 0, 1, 11, 0, 3, 0, 0, 1]
    tally.want('a chain', tree_of(b'[[A.B::1||<q>[[c]]</q>]]') == laid(SIZE, (0, b'\6'), (NODES, bytes(rows)), (STRINGS, b'1cBA')))
    rows = [3, 0, 0, 0, 0, 2, 3, 0, 2, 0, 0, 1, 2, 0, 1, 0, 0, 0, 4, 0, 3, 0, 0, 0, 6, 4, 3, 0, 2, 1, 2, 0, 1, 0, 0, 0, 0, 0, 3, 0, 0, 0,
            7, 0, 0, 0, 0, 0, 8, 3, 6, 0, 0, 1, 2, 0, 1, 0, 0, 0, 10, 0, 7, 0, 0, 2, 1, 0, 4, 0, 0, 0]
    tally.want('all kinds of nodes', tree_of(b'[[Category:ab||c]] [[:+||>Ta:b]] OR [[P1::+||<<9]]')
               == laid(SIZE, (0, b'\14'), (NODES, bytes(rows)), (STRINGS, b'abcTab9P1')))
    texts = b'[[a]]', b'[[!a]]', b'[[>>a]]', b'[[<<a]]', b'[[>a]]', b'[[<a]]'
    tally.want('comparators', [tree_of(text)[NODES + 1] for text in texts] == [*range(6)])
    tally.want('groups leave no trace', tree_of(b'<q><q>[[a]]</q> AND [[b]]</q>[[c]]') == tree_of(b'[[a]][[b]]  [[c]]'))
    tally.want('a group that counts', tree_of(b'[[a]]<q>[[b]][[c]]</q>') != tree_of(b'[[a]][[b]][[c]]'))
    tally.want('a written colon', tree_of(b'[[:a]]') != tree_of(b'[[a]]'))


def spellings(tally):
    """Names typed in two ways are one; a value stays as typed, since it may be a string (request 4)."""
    for text, same in (('[[Bäckerei||Köln:+||>Süd:é]] OR [[Käufe.Gehört zu::<q>[[Category:Händler]]</q>||+]]', True), ('[[Käufe::é]]', False)):
        one, other = (tree_of(accents.typed(way, text).encode('latin-1')) for way in accents.WAYS)
        tally.want(f'spellings of {text}', (one == other) == same)


def number_spellings(tally):
    """A number spelled in two ways is two trees and one held query; another number is another one (request 7)."""
    register, forms = register_from(SAMPLE), []
    for row in ASCENDING:
        texts = [f'[[Crates::>{text}]]'.encode() for text in row]
        forms.append({query_form.held_query(query_call(register, text)[1]) for text in texts})
        tally.want(f'spellings of {row[0]}', len({*map(tree_of, texts)}) == len(row) and len(forms[-1]) == 1)
    tally.want('two numbers, one held query', len(set().union(*forms)) == len(ASCENDING))


def query_by_hand(tally):
    core = query_call(register_from(SAMPLE), b'[[Lot::>A7]] OR [[Crates::-0.5]] [[Brought by::Talk:D||<q>[[Talk:D]]</q>]]')[1]
    rows = [[7, 2, 3, 0, 0, 0, 3, 0, 3, 0, 2, 0], [7, 0, 3, 0, 5, 0, 3, 0, 8, 0, 2, 0], [1], [7, 0, 1, 0, 10, 0, 6, 0, 0, 0, 0, 0],
            [8, 0, 5, 0, 16, 0, 14, 0, 30, 0, 1, 0], [3, 0, 0, 0, 31, 0, 4, 0], [6, 0, 0, 0, 0, 0, 0, 0, 35, 0, 1, 0], [0],
            [5, 0, 0, 0, 36, 0, 10, 0], [1], [0], [1]]
    number = (10 ** 18 - 500).to_bytes(8, 'little')
    placed = [(query_form.NODES + query_form.NODE * at, bytes(row)) for at, row in enumerate(rows)]
    wanted = laid(query_form.SIZE, (0, bytes([len(rows)])), *placed, (query_form.NODES + query_form.NODE * 3 + 12, number),
                  (query_form.HEAP, b'LotA7LotA7CratesBrought byTalkDTalkDBrought by'))
    tally.want('a held query', query_form.held_query(core) == wanted)
    tally.want('a held query, one byte short', query_form.read_query(wanted[:-1]) is None)
    tally.want('a held query, one byte more', query_form.read_query(wanted + b'x') == core)
    tally.want('unused bytes are not read', query_form.read_query(laid(query_form.SIZE, (0, wanted), (query_form.HEAP - 1, b'\1'))) == core)


def queries_stated(tally):
    """Links and numbers that are laid by hand: what is read of the bytes, that it reads back from its form, and that what a text gives is written so."""
    for label, core, held in odd_queries():
        found = query_form.read_query(held)
        tally.want(f'{label}: not {core}', repr(found) == repr(core))
        if found:
            tally.want(f'{label}: no round trip', repr(query_form.read_query(query_form.held_query(found))) == repr(found))
    for label, core, held in written():
        if core:
            tally.want(f'{label}: not written so', query_form.held_query(core) == held)


def stated(tally):
    for label, is_tree, held in odd_trees():
        found = decode(held)
        tally.want(f'{label}: not {is_tree}', (found is not None) == is_tree and (found is None or encode(found) == held[:SIZE]))


# Round trips.

def drawn(seed):
    """(random, register text, query text), the papers' examples first."""
    yield from ((random.Random(case['label']), case['register'].encode('latin-1'), case['query'].encode('latin-1')) for case in cases())
    for number, (register, query, _) in enumerate(generate.cases(f'trees {seed}', ROUNDS)):
        yield random.Random(f'{seed} {number}'), register, query


def round_trip(tally, rng, text, query):
    """The tree reads back, its shortest text has it too, and so has every other spelling that is read."""
    held = encode(query)
    shortest = spelling(held)
    tally.want(f'no round trip: {text}', len(held) == SIZE and decode(held) is not None and encode(decode(held)) == held)
    tally.want(f'not shorter: {text}', len(shortest) <= len(text) and tree_of(shortest) == held)
    again = 0
    for _ in range(3):
        other = respelled_query(rng, query)
        number, found = read_query(other)
        again += number == 0
        tally.want(f'respelled as {number}: {other}', encode(found) == held if number == 0 else number in (12, 14))
    return again


def round_trips(tally, seed):
    """By both ways the same core query or refusal, and it has a form that reads back."""
    again = fitted = 0
    for rng, register_text, text in drawn(seed):
        number, query = read_query(text)
        again += round_trip(tally, rng, text, query) if number == 0 else 0
        register = register_call(register_text)[1]
        if register and number == 0:
            one, other = query_call(register, text), fit_call(decode(encode(query)), register)
            tally.want(f'two ways: {text}', repr(one) == repr(other))
            if one[1]:
                fitted += 1
                tally.want(f'no form: {text}', repr(query_form.read_query(query_form.held_query(one[1]))) == repr(one[1]))
    tally.want('too few are respelled or fitted', again > ROUNDS and fitted > ROUNDS // 4)


# Changed bytes: the form of nothing, or of another query.

def held_changes(held, places):
    """The changes (where, byte) of one byte that give a held tree."""
    return {(at, byte) for at in places for byte in range(256) if byte != held[at] and decode(held[:at] + bytes([byte]) + held[at + 1:]) is not None}


def used_places(held):
    count, used = int.from_bytes(held[:2], 'little'), len(held[STRINGS:].rstrip(b'\0'))
    return [*range(NODES + NODE * count + 2 * NODE), *range(STRINGS, STRINGS + used + 2)]


def names_near(names):
    """How many other names come of one byte changed."""
    return sum(is_name(name[:at] + bytes([byte]) + name[at + 1:]) for name in names for at in range(len(name)) for byte in range(256)
               if byte != name[at])


def every_byte(tally):
    """All changes of a byte that give another tree, counted by hand: other comparators, other names, and the kinds of node that are named."""
    others = len(COMPARATORS) - 1
    for text, kinds, names in (
            (b'[[a]]', others + len(('a category', 'with a colon')), [b'a']),
            (b'[[!a]]', others + len(('with a colon',)), [b'a']),
            (b'[[Category:ab]]', len(('bare', 'with a colon')), [b'ab']),
            (b'[[>T:a b]]', others, [b'T', b'a b'])):
        held = tree_of(text)
        tally.want(f'changes of {text}', len(held_changes(held, used_places(held))) == kinds + names_near(names))
    held = tree_of(b'[[Category:Delivery]] <q>[[D1||Talk:+]] OR [[Crates::>12||+]]</q> OR [[A.B::<q>[[!c]]</q>]]')
    found = held_changes(held, used_places(held))
    tally.want('changes', all(encode(decode(held[:at] + bytes([byte]) + held[at + 1:]))[at] == byte for at, byte in found) and len(found) > 1000)
    for at in {*range(SIZE)} - {*used_places(held)}:
        tally.want(f'byte {at} behind', decode(held[:at] + b'\1' + held[at + 1:]) is None)


def refusals(tally):
    register, query = register_from(SAMPLE), read_query(b'[[Qty::1]]')[1]
    tally.want('11 before 34', fit_call(None, None) == (11, None) and fit_call(query, None) == (11, None))
    tally.want('34 before 17', fit_call(None, register) == (34, None) and fit_call(query, register) == (17, None))


def main(words):
    tally, seed = Tally(), words[0] if words else '7'
    trees_by_hand(tally)
    spellings(tally)
    number_spellings(tally)
    query_by_hand(tally)
    queries_stated(tally)
    stated(tally)
    round_trips(tally, seed)
    every_byte(tally)
    refusals(tally)
    print(f'{tally.passed} passed, {tally.failed} failed')
    return tally.failed


if __name__ == '__main__':
    sys.exit(main(sys.argv[1:]) > 0)
