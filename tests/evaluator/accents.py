"""Request 4 (paper 02, Ask 4): accented names typed two ways, with the answers that it states, for cases.py.

Texts are bytes, a character each. A text is typed as NFC has it, an accented letter being one code point, or as NFD has it, a letter and a mark."""
import unicodedata

WAYS = ('NFC', 'NFD')


def utf8(text):
    return text.encode().decode('latin-1')


def typed(way, text):
    return utf8(unicodedata.normalize(way, text))


# Lines that are typed in turn in two ways have every link and property of a page in another spelling than where it is declared.
BAKERIES = '''(prop "Brought by" page)
(prop "Gehört zu" page)
(page "" "Bäckerei" (cat "Händler") (val "Gehört zu" "Köln:Süd"))
(page "Köln" "Süd" (cat "Großmarkt"))
(prop "Käufe" number)
(page "" "D1" (cat "Händler") (val "Brought by" "Bäckerei") (val "Käufe" "12"))
(page "" "D2" (cat "Delivery") (val "Brought by" "Köln:Süd") (val "Käufe" "3"))
'''
BAKERIES_TYPED = (('NFC',), ('NFD',), ('NFC', 'NFD'), ('NFD', 'NFC'))
FOUND = (
    ('[[Bäckerei]]', [0]),
    ('[[Backerei]]', []),
    ('[[!Bäckerei]]', [1, 2, 3]),
    ('[[Köln:Süd||D2]]', [1, 3]),
    ('[[Köln:+]]', [1]),
    ('[[Category:Händler]]', [0, 2]),
    ('[[Category:Großmarkt||Händler]]', [0, 1, 2]),
    ('[[Brought by::Bäckerei]]', [2]),
    ('[[Brought by::!Süd]]', [2]),
    ('[[Brought by::Köln:Süd]]', [3]),
    ('[[Gehört zu::Köln:Süd]]', [0]),
    ('[[Brought by.Gehört zu::Köln:Süd]]', [2]),
    ('[[Brought by.Gehört zu::<q>[[Category:Großmarkt]]</q>]]', [2]),
    ('[[Käufe::>5]] OR [[Gehört zu::+]]', [0, 2]),
    ('[[>>Bz]] [[<<C]]', [0]),  # in the order of the composed bytes, and not of those typed
)

# Pages 0 and 1 have one string in two spellings, page 2 has both.
STRINGS = '''(prop "{prop}" string)
(page "" "a" (val "{prop}" "{NFC}"))
(page "" "b" (val "{prop}" "{NFD}"))
(page "" "c" (val "{prop}" "{NFC}") (val "{prop}" "{NFD}"))
'''
STRINGS_FOUND = (('', 'NFC', [0, 2]), ('', 'NFD', [1, 2]), ('!', 'NFC', [1, 2]), ('!', 'NFD', [0, 2]), ('>>', 'NFD', [0, 2]), ('<<', 'NFD', []))

LONG = 'ä' * 21 + 'n'  # 64 bytes with marks, 43 without
LENGTHS = ((LONG, 'NFC', True), (LONG, 'NFD', True), (LONG + 'n', 'NFC', True), (LONG + 'n', 'NFD', False), ('ä' * 32, 'NFC', True),
           ('ä' * 32, 'NFD', False), ('ä' * 32 + 'n', 'NFC', False))

# Blanks that are none, and letters that no mark makes.
OTHER_NAMES = '\u00a0a\u00a0', '\u00a0', '\u00df', '\u00f8', '\u0142', '\u0131', '\u017f', '\u0132', '\u0149', '\u00a8'

BAD_NAMES = (
    ('a mark at the start', utf8('\u0308a')),
    ('a mark alone', utf8('\u0300')),
    ('two marks', utf8('a\u0308\u0308')),
    ('two marks that compose with their letter', utf8('u\u0308\u0304')),
    ('a mark behind a composed letter', utf8('\u00e4\u0308')),
    ('a mark behind a letter that does not compose with it', utf8('b\u0308')),
    ('a mark behind a space', utf8('a \u0308b')),
    ('a mark behind U+00A0', utf8('\u00a0\u0308')),
    ('a letter and a mark that compose to U+01CE', utf8('a\u030c')),
    ('a letter and a mark that compose to U+1EA1', utf8('a\u0323')),
    ('U+0340, which the standard takes for U+0300', utf8('a\u0340')),
    ('U+212B, which the standard takes for U+00C5', utf8('\u212b')),
    ('U+0080', utf8('a\u0080')),
    ('U+009F', utf8('a\u009f')),
    ('U+0180', utf8('\u0180')),
    ('U+1E9E, three bytes', utf8('\u1e9e')),
    ('U+1F35E, four bytes', utf8('\U0001f35e')),
    ('an overlong pair', '\xc1\x81'),
    ('an overlong triple', '\xe0\x83\xa4'),
    ('a lone lead byte', 'a\xc3'),
    ('a lead byte before a letter', '\xc3a'),
    ('a lone continuation byte', 'a\xa4'),
    ('half a pair of surrogates', '\xed\xa0\x80'),
)
NAMES_IN_REGISTERS = '(page "" "%s")\n', '(page "%s" "a")\n', '(page "" "a" (cat "%s"))\n', '(prop "%s" page)\n', '(page "" "a" (val "%s" "1"))\n'
LINKS_IN_REGISTERS = '%s', 'T:%s', '%s:a'
NAMES_IN_QUERIES = ('[[%s]]', '[[>%s]]', '[[T:%s]]', '[[a||%s:a]]', '[[%s:+]]', '[[Category:%s]]', '[[Category:a||%s]]', '[[%s::+]]',
                    '[[Brought by.%s::+]]')
LINKS_IN_QUERIES = '[[Brought by::%s]]', '[[Brought by::!T:%s]]', '[[In region.Brought by::a||%s:a]]'


def bakeries(ways):
    lines = BAKERIES.splitlines(keepends=True)
    return ''.join(typed(ways[at % len(ways)], line) for at, line in enumerate(lines))


def linked(name):
    return f'(prop "P" page)\n(page "" "a" (val "P" "{name}"))\n'


def held_names():
    """Bytes, each with whether they are a name as held forms have it, which is composed."""
    good = [*map(utf8, OTHER_NAMES), *(typed('NFC', name) for name in ('Bäckerei', LONG, 'ä' * 32))]
    bad = [*(name for _, name in BAD_NAMES), *(typed('NFD', name) for name in ('Bäckerei', LONG, 'ä')), typed('NFC', 'ä' * 32 + 'n')]
    return [(name.encode('latin-1'), kept) for names, kept in ((good, True), (bad, False)) for name in names]


def strings_found():
    for way in WAYS:
        prop, strings = typed(way, 'Süß'), {one: typed(one, 'Grün') for one in WAYS}
        for comparator, one, places in STRINGS_FOUND:
            query = f'[[{typed(WAYS[0], "Süß")}::{comparator}{strings[one]}]]'
            yield f'string {comparator}{one}, property as {way}', STRINGS.format(prop=prop, **strings), 3, query, places
    for label, name in BAD_NAMES:
        yield f'{label}: a string', f'(prop "S" string)\n(page "" "a" (val "S" "{name}"))\n', 1, f'[[S::{name}]]', [0]


def bakeries_found():
    for ways in BAKERIES_TYPED:
        for query, places in FOUND:
            yield from ((f'{query} as {way}, register as {ways}', bakeries(ways), 4, typed(way, query), places) for way in WAYS)


def names_found():
    for name, way, kept in LENGTHS:
        if kept:
            one, other = typed(way, name), typed('NFC', name)
            yield f'{name} as {way}', f'(prop "P" page)\n(page "" "{one}" (val "P" "{one}"))\n', 1, f'[[{other}]] [[ {one} ]] [[P::{one}]]', [0]
    for name in map(utf8, OTHER_NAMES):
        register = f'(page "" "{name}")\n(page "" "a" (cat "{name}"))\n'
        yield f'name {ascii(name)}', register, 2, f'[[ {name} ]] OR [[Category: {name} ]]', [0, 1]
    blank = utf8('\u00a0')
    for query, places in (('[[a]]', []), (f'[[{blank}a{blank}]]', [0]), ('[[Category:C]]', [0]), (f'[[{blank}Category:C]]', [])):
        yield 'U+00A0 is no blank', f'(page "" "{blank}a{blank}" (cat "C"))\n', 1, query, places


def accepted():
    """Each is (label, register, pages, query, marked places)."""
    for some in (bakeries_found, names_found, strings_found):
        yield from some()


def registers_refused():
    """Each is (number, label, register)."""
    for line in ('(page "" "%s")\n', '(page "%s" "a")\n', '(prop "%s" page)\n'):
        yield 4, f'two spellings: {line}', ''.join(line % typed(way, 'é') for way in WAYS)
    for label, name in BAD_NAMES:
        yield from ((3, f'{label}: {line}', line % name) for line in NAMES_IN_REGISTERS)
        yield from ((6, f'{label}: link {link}', linked(link % name)) for link in LINKS_IN_REGISTERS)
    for name, way, kept in LENGTHS:
        if not kept:
            yield from ((3, f'{name} as {way}: {line}', line % typed(way, name)) for line in (*NAMES_IN_REGISTERS, linked('%s')))
    yield from ((3, f'a property name with a dot as {way}', f'(prop "{typed(way, "ä.b")}" page)\n') for way in WAYS)


def queries_refused():
    """Each is (number, query); the register is the papers' sample. The value rule, 16, is as it was."""
    for _, name in BAD_NAMES:
        yield from ((15, query % name) for query in NAMES_IN_QUERIES)
        yield from ((18, query % name) for query in LINKS_IN_QUERIES)
    for name, way, kept in LENGTHS:
        if not kept:
            yield from ((15, query % typed(way, name)) for query in NAMES_IN_QUERIES)
            yield from ((16, query % typed(way, name)) for query in LINKS_IN_QUERIES)
    for number, query in ((17, '[[Käufe::1]]'), (17, '[[ä.b::1]]'), (15, '[[ä.::1]]'), (16, '[[Brought by::~ä]]'), (16, '[[Lot::~ä]]'),
                          (13, '[[ä]]\u00a0[[b]]')):
        yield from ((number, typed(way, query)) for way in WAYS)


def second_runs():
    """Each is (register of the query call, query, register of the run, number, marks)."""
    for one, other in (WAYS, WAYS[::-1]):
        query = typed(other, '[[Brought by.Gehört zu::Köln:Süd]] OR [[Category:Großmarkt]]')
        yield bakeries((one,)), query, bakeries((other,)), 0, '0110'
