"""Forms written row by row that are the form of a register or miss it by one thing. `odd_forms()` yields (label, whether one, bytes)."""
from decimals import CODES, SHORTEST
from form import BYTES, FORMS, PAGES, PROPS, SIZE, STARTS, TERMS, TEXTS, lay, term_bytes

ZERO = 10 ** 18  # the code of the number 0
NAMES = [b'\0B', b'\0L', b'\0N', b'\0S', b'\0a', b'\0b', b'\1Ta']
STRING, NUMBER, LINK, BOOLEAN = 1, 2, 3, 4  # groups

# Two pages, T:a with category a, string a, number 0.007, a link to itself and true, and a with categories a and b.
BASE = {
    'props': [(3, 3), (1, 2), (0, 1), (2, 0)],
    'pages': [6, 4],
    'starts': [0, 5, 7],
    'forms': [0, 2, 3, 4, 5, 0, 1],
    'terms': [(0, 4), (0, 5), (STRING, 4), (NUMBER, ZERO + 7), (LINK, 6), (BOOLEAN, 1)],
    'texts': NAMES,
}


def laid(**rows):
    rows = {**BASE, **rows}
    rows['terms'] = [term_bytes(*term) for term in rows['terms']]
    return lay(**rows)


def put(rows, place, row):
    return [*rows[:place], row, *rows[place + 1:]]


def term(place, group, code):
    return laid(terms=put(BASE['terms'], place, (group, code)))


def text(place, content):
    return laid(texts=put(NAMES, place, content))


def patched(at, *content):
    held = laid()
    return held[:at] + bytes(content) + held[at + len(content):]


def of_texts():
    """Text 4 is a page, a category and a string, 5 a category, 6 a page and a link."""
    yield 'another name', True, text(4, b'\0Z')
    yield 'a text twice, both used', False, laid(texts=put(NAMES, 5, b'\0a'))
    yield 'pages of one name by two texts', False, laid(texts=put(NAMES, 5, b'\0a'), pages=[5, 4])
    yield 'texts that descend', False, text(5, b'\0A')
    yield 'a prefix behind', False, text(4, b'\0bc')
    yield 'a text that nothing uses', False, laid(texts=[*NAMES, b'\1Tb'])
    yield 'a text without a byte', False, laid(texts=[b'', *NAMES[1:]], props=BASE['props'][:3], forms=[0, 2, 3, 4, 0, 1], starts=[0, 4, 6],
                                               terms=BASE['terms'][:5])
    yield 'an empty name', False, text(4, b'\0')
    yield 'an empty name in a namespace', False, text(6, b'\1T')
    yield 'a namespace that ends behind the text', False, text(6, b'\3Ta')
    yield 'a namespace of 64 bytes', True, laid(texts=put(NAMES, 6, b'\x40' + b'n' * 64 + b'a'), terms=put(BASE['terms'], 4, (LINK, 4)))
    yield 'a namespace of 65 bytes', False, laid(texts=put(NAMES, 6, b'\x41' + b'n' * 65 + b'a'), terms=put(BASE['terms'], 4, (LINK, 4)))
    yield 'a link of 64 bytes', True, text(6, b'\x20' + b'n' * 63)
    yield 'a link of 65 bytes', False, text(6, b'\x20' + b'n' * 64)
    yield 'a bad namespace', False, text(6, b'\1+a')
    yield 'a namespace with a dot', True, text(6, b'\3T.da')
    yield 'a name of 64 bytes', True, text(5, b'\0' + b'b' * 64)
    yield 'a name of 65 bytes', False, text(5, b'\0' + b'b' * 65)
    yield 'a category in a namespace', False, term(1, 0, 6)
    yield 'a category in a namespace, all used', False, laid(texts=[*NAMES[:5], b'\1Ta', b'\1Tb'])
    yield 'a string in a namespace', False, laid(terms=put(BASE['terms'], 2, (STRING, 6)))
    yield 'a property in a namespace', False, laid(props=put(BASE['props'], 0, (3, 6)), pages=[3, 4])
    yield 'a property name with a dot', False, text(3, b'\0S.')
    yield 'a category with a dot', True, text(5, b'\0b.')
    for good in (b'\xc3\xa4', b'\xc2\xa0', b'\xc5\xbf'):
        yield 'a composed name', True, text(5, b'\0b' + good)
        yield 'a composed namespace', True, text(6, b'\3T' + good + b'a')
    for bad in (b':', b'#', b'{', b'}', b'_', b'a\xcc\x88', b'b\xcc\x88', b'\xcc\x88', b'\xc2\x9f', b'\xc6\x80', b'\xc1\xa1', b'\xff', b'\xc3', b'\xe2\x82\xac'):
        yield 'a name that is a value only', False, text(5, b'\0b' + bad)
        yield 'a string that is no name', True, laid(texts=[*NAMES[:6], b'\0c' + bad, NAMES[6]], pages=[7, 4],
                                                     terms=[*BASE['terms'][:2], (STRING, 6), BASE['terms'][3], (LINK, 7), BASE['terms'][5]])
    for bad in (b'[', b']', b'|', b'<', b'>', b'"', b'\x7f', b'\x1f', b'\n', b'\0', b' '):
        yield 'a name that is no value', False, text(5, b'\0b' + bad)
        yield 'a string that is no value', False, laid(texts=[*NAMES[:6], b'\0c' + bad, NAMES[6]], pages=[7, 4],
                                                       terms=[*BASE['terms'][:2], (STRING, 6), BASE['terms'][3], (LINK, 7), BASE['terms'][5]])


def of_terms():
    yield from ((f'number {code}', is_number, term(3, NUMBER, code)) for code, is_number in CODES)
    yield 'false', True, term(5, BOOLEAN, 0)
    for code in (2, 256, 1 << 56, (1 << 56) + 1, (1 << 64) - 1):
        yield f'boolean {code}', False, term(5, BOOLEAN, code)
    for place, group in ((1, 0), (2, STRING), (4, LINK)):
        for more in (1 << 16, 1 << 32, 1 << 55, 1 << 56, 1 << 63):
            yield 'a text by a code too large', False, term(place, group, BASE['terms'][place][1] + more)
        yield 'a text behind the last', False, term(place, group, len(NAMES))
    yield 'a group behind the last', False, term(5, 5, 1)
    yield 'a group behind the last, of what lies there', False, laid(props=BASE['props'][:3], texts=NAMES[1:], pages=[5, 3],
                                                                    terms=[(0, 3), (0, 4), (STRING, 3), (NUMBER, ZERO + 7), (LINK, 5), (4, 5)])
    yield 'group 255', False, term(5, 255, 1)
    yield 'terms that descend', False, laid(terms=[(0, 5), (0, 4), *BASE['terms'][2:]], forms=[1, 2, 3, 4, 5, 1, 0])
    yield 'groups that descend', False, laid(terms=[*BASE['terms'][:4], (BOOLEAN, 1), (LINK, 6)], forms=[0, 2, 3, 5, 4, 0, 1])
    yield 'a term twice, both used', False, term(1, 0, 4)
    yield 'a term that nothing uses', False, laid(forms=[0, 2, 3, 4, 0, 1], starts=[0, 4, 6])
    yield 'numbers by their bytes', True, laid(terms=[*BASE['terms'][:3], (NUMBER, ZERO + 12), (NUMBER, ZERO - 3), *BASE['terms'][4:]],
                                              forms=[0, 2, 3, 5, 6, 4, 0, 1], starts=[0, 6, 8])
    yield 'numbers by their size', False, laid(terms=[*BASE['terms'][:3], (NUMBER, ZERO - 3), (NUMBER, ZERO + 12), *BASE['terms'][4:]],
                                              forms=[0, 2, 3, 5, 6, 4, 0, 1], starts=[0, 6, 8])


def of_rows():
    yield 'as meant', True, laid()
    yield 'a property twice', False, laid(props=[*BASE['props'], (3, 3)])
    yield 'a kind behind the last', False, laid(props=put(BASE['props'], 3, (4, 0)))
    yield 'another order of properties', True, laid(props=[BASE['props'][0], BASE['props'][1], BASE['props'][3], BASE['props'][2]],
                                                    terms=[*BASE['terms'][:4], (3, 1), (4, 6)])
    yield 'a property by a text behind the last', False, laid(props=put(BASE['props'], 3, (2, 7)))
    yield 'a page by a text behind the last', False, laid(pages=[7, 4])
    yield 'a page twice', False, laid(pages=[4, 4])
    yield 'a page of a property name', True, laid(pages=[0, 4])
    yield 'a page of a string that is no name', False, laid(texts=put(NAMES, 4, b'\0a:'), terms=put(BASE['terms'], 0, (0, 3)))
    yield 'pages in another order', True, laid(pages=[4, 6])
    yield 'a term on a page twice', False, laid(forms=[0, 2, 3, 4, 5, 0, 1, 1], starts=[0, 5, 8])
    yield 'a term on both pages', True, laid(forms=[0, 2, 3, 4, 5, 0, 1, 5], starts=[0, 5, 8])
    yield 'a category behind a value', False, laid(forms=[2, 0, 3, 4, 5, 0, 1])
    yield 'values in another order', True, laid(forms=[0, 5, 3, 4, 2, 1, 0])
    yield 'a term behind the last', False, laid(forms=[0, 2, 3, 4, 5, 0, 6])
    yield 'all forms on the second page', False, laid(starts=[5, 5, 7])
    yield 'no form on the first page', True, laid(starts=[0, 0, 6], forms=[0, 1, 2, 3, 4, 5])
    yield 'starts that descend', False, laid(starts=[0, 7, 5])
    yield 'starts that descend and rise', False, laid(pages=[6, 4, 5], starts=[0, 2, 1, 6], forms=[0, 1, 2, 3, 4, 5])
    yield 'a form less', False, laid(starts=[0, 5, 6])
    yield 'a form of zeros more', True, laid(starts=[0, 5, 7], forms=[0, 2, 3, 4, 5, 1, 0])
    yield 'a page without forms', True, laid(pages=[6, 4, 5], starts=[0, 5, 7, 7])
    yield 'the end missing', False, laid(pages=[6, 4, 5], starts=[0, 5, 7])


def of_regions():
    """Counts over the limits, and bytes behind the last rows."""
    for at, most in ((0, 64), (2, 256), (4, 2048), (6, 2368)):
        for count in (most, most + 1, 65535):
            yield 'a count too large', False, patched(at, count % 256, count // 256)
    yield 'more than 2,048 forms', False, patched(STARTS + 4, 1, 8)
    yield 'texts that end behind the form', False, patched(TEXTS + 14, 255, 255)
    yield 'texts that begin late', False, patched(TEXTS, 1)
    rows = ((PROPS, 12, PAGES), (PAGES, 4, STARTS), (STARTS, 6, FORMS), (FORMS, 14, TERMS), (TERMS, 54, TEXTS), (TEXTS, 16, BYTES), (BYTES, 15, SIZE))
    for start, used, end in rows:
        for at in (start + used, start + used + 1, (start + used + end) // 2, end - 1):
            yield 'a byte behind the last row', False, patched(at, 1)
    yield 'a byte behind the form', True, laid() + b'x'
    yield 'a byte less', False, laid()[:-1]


def of_bytes():
    """At 32,768 bytes and at 32,769, each with one thing more of some length on its page beside names of 64 bytes."""
    things = (
        ('nothing', 2, {}), ('a property', 2 + 1, {'props': [(3, 0)], 'texts': [b'\0S']}),
        *((text, 2 + 1 + len(text), {'props': [(1, 0)], 'texts': [b'\0N'], 'term': ZERO + number}) for number, text in SHORTEST),
        ('false', 2 + 1 + 5, {'props': [(2, 0)], 'texts': [b'\0B'], 'term': 0}),
        ('true', 2 + 1 + 4, {'props': [(2, 0)], 'texts': [b'\0B'], 'term': 1}),
        ('a main link', 2 + 1 + 1, {'props': [(0, 0)], 'texts': [b'\0L'], 'term': 0}),
        ('a link', 2 + 1 + 4, {'props': [(0, 0)], 'texts': [b'\0L'], 'last': b'\1Tab'}),
        ('a string', 2 + 1 + 1, {'props': [(3, 0)], 'texts': [b'\0S'], 'term': 0}),
    )
    for label, size, rows in things:
        for more in (0, 1):
            yield f'{32768 + more} bytes with {label}', more == 0, filled(32768 + more - size, **rows)


def filled(size, props=(), texts=(), term=None, last=None):
    """A page g2 with categories of that many bytes, and one value of the first property."""
    names = []
    while size > 0:
        names.append((b'\0c%03d' % len(names)).ljust(1 + (size if size <= 64 else min(64, size - 5)), b'z'))
        size -= len(names[-1]) - 1
    all_texts = [*texts, *names, b'\0g2', *([last] if last else [])]
    code = len(all_texts) - 1 if last else term
    # Terms ascend by the low byte of their text's number, then by the high one.
    numbers = sorted(range(len(texts), len(texts) + len(names)), key=lambda number: (number % 256, number // 256))
    terms = [(0, number) for number in numbers] + ([] if code is None else [(1, code)])
    return laid(props=list(props), pages=[len(texts) + len(names)], starts=[0, len(terms)], forms=list(range(len(terms))), terms=terms, texts=all_texts)


def odd_forms():
    for some in (of_rows, of_texts, of_terms, of_regions, of_bytes):
        yield from some()
