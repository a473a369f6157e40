"""Writes the register texts of the benchmark: `inputs.py DIRECTORY`.

`sample.txt`, `full.txt`, `strings.txt`, which is the full register with strings for its links, and the inputs that must not be slow:
`NAME.txt`, as much as one text holds, and `NAME-1.txt` and `NAME-2.txt`, which are joined. The full register has halves likewise.
Registers full of accented names: `NAME-composed.txt`, and `NAME-typed.txt` with each of their letters typed as a letter and a mark;
`NAME-composed-queries.txt` and `NAME-typed-queries.txt`, a query a line."""
import os
import string
import sys
import unicodedata

sys.path.insert(0, os.path.join(os.path.dirname(os.path.abspath(__file__)), '..', 'tests', 'evaluator'))

from cases import SAMPLE

MOST_BYTES = 32768
LETTERS = string.ascii_letters + string.digits
LAST_BYTES = LETTERS + '-='
# The letters from U+00C0 to U+017F that are a letter and a mark.
ACCENTED = [chr(code) for code in range(0xC0, 0x180) if unicodedata.normalize('NFD', chr(code)) != chr(code)]
N, L, S, C, D = '\u00d1\u0139\u015a\u010d\u010f'  # what the full register names N, L, S, c and d


def full_register(places=range(256), links='page'):
    """256 pages and 2,048 forms. The links under L lead from each page to another, so that a chain always goes on."""
    lines = ['(prop "N" number)\n', f'(prop "L" {links})\n', '(prop "S" string)\n']
    for i in places:
        forms = f' (cat "c{i % 8}") (cat "d{i % 3}") (val "N" "{i}") (val "L" "p{i * 7 % 256}")'
        forms += ''.join(f' (val "S" "{(i + k) % 10}")' for k in range(4))
        lines.append(f'(page "" "p{i}"{forms})\n')
    return ''.join(lines)


def mixed(numbers):
    """Numbers below 2,048 in no order, each once."""
    return [number * 7919 % 2048 for number in numbers]


def page_with(forms, props=''):
    return f'{props}(page "" "a"{"".join(forms)})\n'


def letters(number):
    """Two letters or digits for a number below 3,844."""
    return LETTERS[number // 62] + LETTERS[number % 62]


def values(numbers):
    """One page with strings of 15 bytes that begin alike."""
    return page_with((f' (val "S" "value-{i:09}")' for i in mixed(numbers)), '(prop "S" string)\n')


def short_values():
    """2,048 in one text."""
    return page_with((f' (val "S" "{letters(i)}")' for i in mixed(range(2048))), '(prop "S" string)\n')


def categories(numbers):
    """One page with categories of 14 bytes that begin alike."""
    return page_with(f' (cat "category{i:06}")' for i in mixed(numbers))


def short_categories():
    """2,048 in one text."""
    return page_with(f' (cat "cate{letters(i)}")' for i in mixed(range(2048)))


def long_name(number):
    """A name of 64 bytes. A last byte has fewer than 256 values, so that the one before it has four."""
    number = number * 37 % 256
    return 'all of these names are alike up to their last two bytes, these' + ' ,-='[number // 64] + LAST_BYTES[number % 64]


def names(numbers, links=255):
    """Pages with names of 64 bytes that differ at the end, each with a link to the next."""
    lines = ['(prop "L" page)\n']
    for i in numbers:
        link = f' (val "L" "{long_name(i + 1)}")' if i < links else ''
        lines.append(f'(page "" "{long_name(i)}"{link})\n')
    return ''.join(lines)


def properties(places):
    """64 link properties with names of 64 bytes that differ in the last one, and pages that link to the next under the last of them."""
    names = ['all of these names are alike up to their last two bytes, these ' + last for last in LAST_BYTES]
    lines = [f'(prop "{name}" page)\n' for name in names]
    lines += [f'(page "" "p{i}" (val "{names[-1]}" "p{(i + 1) % 256}"))\n' for i in places]
    return ''.join(lines)


def accented(number, length=2):
    """A name of accented letters for a number below 256; the first two say which."""
    letters_behind = (ACCENTED[(number + 31 * place) % len(ACCENTED)] for place in range(2, length))
    return ACCENTED[number % 16] + ACCENTED[number // 16] + ''.join(letters_behind)


def accented_register(count):
    """The full register's shape with accented names only, and queries: a category, a link."""
    lines = [f'(prop "{N}" number)\n', f'(prop "{L}" page)\n', f'(prop "{S}" string)\n']
    for i in range(count):
        forms = f' (cat "{C}{ACCENTED[i % 8]}") (cat "{D}{ACCENTED[i % 3]}") (val "{N}" "{i}") (val "{L}" "{accented(i * 7 % count)}")'
        forms += ''.join(f' (val "{S}" "{(i + k) % 10}")' for k in range(4))
        lines.append(f'(page "" "{accented(i)}"{forms})\n')
    return ''.join(lines), [f'[[Category:{C}{ACCENTED[5]}]]', f'[[{L}::{accented(5)}]]']


def long_accented_register(count):
    """Names of 21 accented letters and another, 64 bytes as typed, each page with a category and a link to another page."""
    names = [accented(i, 21) + 'e' for i in range(count)]
    lines = [f'(prop "{L}" page)\n']
    lines += [f'(page "" "{names[i]}" (cat "{C}{ACCENTED[i % 8]}") (val "{L}" "{names[i * 7 % count]}"))\n' for i in range(count)]
    return ''.join(lines), [f'[[Category:{C}{ACCENTED[5]}]]', f'[[{L}::{names[5]}]]']


def typed(text):
    return unicodedata.normalize('NFD', text)


def accents():
    """(name, text); as many pages as there may be, or as fit as typed."""
    for name, make in (('accents', accented_register), ('long-accents', long_accented_register)):
        text, queries = next(made for made in map(make, range(256, 0, -1)) if len(typed(made[0]).encode()) <= MOST_BYTES)
        lines = ''.join(query + '\n' for query in queries)
        yield from ((f'{name}-composed', text), (f'{name}-composed-queries', lines), (f'{name}-typed', typed(text)), (f'{name}-typed-queries', typed(lines)))


def texts():
    """(name, text)"""
    yield 'sample', SAMPLE
    yield 'full', full_register()
    yield 'strings', full_register(links='string')
    yield 'values', short_values()
    yield 'categories', short_categories()
    yield 'names', names(range(256), links=169)
    yield 'properties', properties(range(256))
    for name, make, count in (('full', full_register, 256), ('values', values, 2048), ('categories', categories, 2048), ('names', names, 256),
                              ('properties', properties, 256)):
        for half in (0, 1):
            yield f'{name}-{half + 1}', make(range(half * count // 2, (half + 1) * count // 2))
    yield from accents()


def main(directory):
    for name, text in texts():
        with open(os.path.join(directory, name + '.txt'), 'w', encoding='utf-8', newline='') as out:
            out.write(text)


if __name__ == '__main__':
    main(sys.argv[1])
