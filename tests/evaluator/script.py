"""The papers' examples as a script for the program `vectors`, and what this evaluator says that it must write.

`script.py FOLDER` compares FOLDER/data/script and FOLDER/stdout with both; `script.py --write FOLDER` writes them.
A step is a letter, a number and a newline; R, r, Q and q have a text of that many bytes and a newline behind it.
"""
import os
import sys

from ask import ask
from cases import SAMPLE, scripted
from query import query_call
from register import register_call

TEXTS = 'RrQq'
ROOM = 256
MOST_SCRIPT = 131072  # what the program has room for


def steps():
    """(letter, number or text)."""
    register = None
    for case in scripted():
        if case['register'] != register:
            register = case['register']
            yield 'R', register
        if case['register_number']:
            continue
        yield 'Q', case['query']
        if case['query_number'] == 0:
            yield 'A', ROOM
        if 'second' in case:
            register = case['second']
            yield 'R', register
            yield 'A', ROOM
    yield from table()


def table():
    """The table's examples that are about buffers: 8, 20, 24, 11, 22, 21."""
    yield 'R', SAMPLE
    yield 'r', SAMPLE
    yield 'q', '[[D1]]'
    yield 'Q', '[[Category:Delivery]]'
    yield 'A', 5
    yield 'A', 6
    yield 'H', 255
    yield 'Q', '[[D1]]'
    yield 'A', 6
    yield 'R', SAMPLE
    yield 'K', 255
    yield 'A', 6


def script():
    out = bytearray()
    for letter, what in steps():
        if letter in TEXTS:
            text = what.encode('latin-1')
            out += b'%s%d\n%s\n' % (letter.encode(), len(text), text)
        else:
            out += b'%s%d\n' % (letter.encode(), what)
    assert len(out) < MOST_SCRIPT
    return bytes(out)


def expected():
    """What each step answers. A refused call changes nothing that is held."""
    register = core = None
    lines = []
    for letter, what in steps():
        if letter in 'Rr':
            number, read = register_call(what.encode('latin-1'))
            number = number or (8 if letter == 'r' else 0)
            register = register if number else read
            lines.append(f'register {number}' if number else f'register 0 pages {len(read.pages)}')
        elif letter in 'Qq':
            number, made = query_call(register, what.encode('latin-1')) if register else (11, None)
            number = number or (20 if letter == 'q' else 0)
            core = core if number else made
            lines.append(f'query {number}')
        elif letter == 'A':
            number, marks = ask(core, register)
            number = number or (24 if what < len(marks) else 0)
            places = [] if number else [place for place, mark in enumerate(marks) if mark]
            lines.append(f'refused {number}' if number else ' '.join(map(str, ['pages', len(places), *places])))
        elif letter == 'H':
            register = None
        else:
            core = None
    return ''.join(line + '\n' for line in lines).encode()


def main(words):
    folder = words[-1]
    files = {os.path.join(folder, 'data', 'script'): script(), os.path.join(folder, 'stdout'): expected()}
    failed = 0
    for path, content in files.items():
        if words[0] == '--write':
            with open(path, 'wb') as out:
                out.write(content)
        with open(path, 'rb') as stored:
            if stored.read() != content:
                print(f'{path} is not what the evaluator says')
                failed += 1
    print(f'{len(files) - failed} passed, {failed} failed')
    return failed


if __name__ == '__main__':
    sys.exit(main(sys.argv[1:]) > 0)
