"""Random register texts, most of them accepted, and pairs of them."""
import re

from decimals import MORE_UNFIT, MOST, UNFIT as UNFIT_NUMBERS
from register import register_call
from respell import respelled, spelled, typed
from values import spelling

NAMES = [b'a', b'b', b'ab', b'B', b'a b', b'D1', b'a.b', b'Category', b'\xc3\xa9', b'\xc5\xbfa\xc3\xab', b'=a', b'\xc3\xa4' * 21 + b'n', b'n' * 64]
NAMESPACES = [b'', b'', b'', b'T', b'Talk', b'\xc3\x96', b'Category']
# Pages; few in Category, since a query that names one with no comparator asks for a category.
KNOWN = [(namespace, name) for namespace in (b'', b'T', b'Talk', b'\xc3\x96') for name in NAMES] + [(b'Category', b'a'), (b'Category', b'C')]
CATEGORIES = [b'C', b'K', b'\xc3\xa9', b'C d', b'a.b']
KINDS = {b'P': b'page', b'Q': b'page', b'R s': b'page', b'N': b'number', b'\xc4\xb2\xc3\xbc': b'number', b'B': b'boolean',
         b'S': b'string', b'U': b'string'}
# Thousandths: few, so that many are equal, and many that differ behind the point only.
NUMBERS = [0, 1, 5, 50, 500, -500, -1, -1000, -1500, 1000, 1005, 1050, 1500, 1500, 1500, 7000, -7000, 12000, 12500, 12500, 12499, MOST, -MOST, MOST - 999,
           999 - MOST]
PLAIN_VALUES = {
    b'boolean': [b'true', b'Yes', b'1', b'FALSE', b'no', b'0', b'nO'],
    b'string': [b'A7', b'A9', b'a', b'7', b'true', b'+', b'=x', b'!x', b'a:b', b'\xff', b'\xc3\xa9', b'e\xcc\x81', b'_', b'x' * 64],
}
UNFIT = {
    b'page': [b'_', b'T:', b'a:b:c', b'T:+', b'a#', b'+'],
    b'number': [b'yes', *(text.encode('latin-1') for text in (*UNFIT_NUMBERS, *MORE_UNFIT))],
    b'boolean': [b'y', b'2', b't', b'truth', b'-0', b'1.0', b'0.0'],
}
BAD_NAMES = [b'', b' a', b'a ', b'!a', b'~a', b'+', b'a:b', b'a_b', b'a#', b'{', b'a|b', b'a<b', b'a]', b'\x7f',
             b'\t', b'n' * 65, b'\xff', b'\xc2\x80', b'\xc1\xa1', b'\xc6\x80', b'\xe2\x82\xac', b'a\xc3', b'b\xcc\x81',
             b'e\xcc\x81\xcc\x81', b'\xcc\x81a', b'\xc3\xa9\xcc\x81', b'u\xcc\x88\xcc\x84', b'a\xcc\x88' * 21 + b'nn']
BAD_VALUES = [b'', b' x', b'x ', b'~x', b'x|y', b'<x', b'x' * 65, b'\x01', b'\x7f']
REGISTER_TOKENS = [b'"', b'(', b')', b' ', b'\n', b'(cat "C")', b'(val "N" "x")', b'prop', b'page', b'\r', b'a']
CAT, VAL = b' (cat "%s")', b' (val "%s" "%s")'
SIZES = [(0, 0)] + [(3, 4), (6, 5), (8, 6), (8, 6), (12, 8), (20, 6), (50, 8)] * 2  # pages, and the most forms of each


def reference(rng):
    name = rng.choice(NAMES[:-1])
    return rng.choice([name, name, b':' + name, rng.choice(NAMESPACES) + b':' + name, b'T : ' + name])


def plain_text(rng, kind):
    """A text of a kind that is not page."""
    if kind != b'number':
        return rng.choice(PLAIN_VALUES[kind])
    return spelled(rng, (kind, rng.choice(NUMBERS) if rng.random() < 0.9 else rng.randint(-2000, 2000)))


def value(rng, kind, names):
    """A text of that kind; most links go to pages of these names, and others mostly to no page."""
    if kind != b'page':
        return plain_text(rng, kind)
    return spelled(rng, (kind, rng.choice(names))) if rng.random() < 0.75 else reference(rng)


def form(rng, props, names):
    if props and rng.random() < 0.7:
        prop, kind = rng.choice(props)
        return VAL % (prop, value(rng, kind, names))
    return CAT % rng.choice(CATEGORIES)


def pages(rng, kinds, count, most):
    """`count` pages of different names, each with up to `most` forms."""
    names = rng.sample(KNOWN, min(count, len(KNOWN))) + [(b'', b'p%d' % number) for number in range(count - len(KNOWN))]
    linked = [one for one in names if len(one[1]) < 64] or [(b'', b'a')]
    props = [one for one in kinds.items() for _ in range(2 if one[1] == b'page' else 1)]  # links more often
    return [[*name, [form(rng, props, linked) for _ in range(rng.randint(0, most))]] for name in names]


def written(rng, kinds, drawn):
    """The register text: prop lines and page lines, sometimes mixed."""
    lines = [b'(prop "%s" %s)\n' % one for one in kinds.items()]
    lines += [b'(page "%s" "%s"%s)\n' % (namespace, name, b''.join(forms)) for namespace, name, forms in drawn]
    if rng.random() < 0.3:
        rng.shuffle(lines)
    text = b''.join(lines)
    return text if rng.random() < 0.5 else re.sub(rb'[^"\n]+', lambda part: typed(rng, part[0]), text)


def some_kinds(rng):
    kinds = dict(KINDS)
    for prop in sorted(kinds):
        if rng.random() < 0.05:
            kinds[prop] = rng.choice([b'page', b'number', b'boolean', b'string'])
        if rng.random() < 0.04:
            del kinds[prop]
    return kinds


def broken_form(rng, kinds):
    """A bad name or value, a property with no prop line, or an unfit value."""
    strict = [prop for prop in sorted(kinds) if kinds[prop] != b'string']
    way = rng.randrange(6)
    if way == 0:
        return CAT % rng.choice(BAD_NAMES)
    if way == 1:
        return VAL % (rng.choice([b'S', b'N', b'P']), rng.choice(BAD_VALUES))
    if way < 4 or not strict:
        return VAL % (rng.choice([b'Z', b'Z', b'a.b']), b'1')
    prop = rng.choice(strict)
    return VAL % (prop, rng.choice(UNFIT[kinds[prop]]))


def broken(rng, kinds, drawn):
    """A register in which one thing, or two, is against the rules."""
    extra = []
    for _ in range(rng.choice([1, 1, 2])):
        way, page = rng.randrange(8), rng.choice(drawn) if drawn else [b'', b'a', []]
        if way < 2:
            page[way] = rng.choice(BAD_NAMES)
        elif way < 6:
            page[2].append(broken_form(rng, kinds))
        elif way == 6:
            extra.append(b'(page "%s" "%s")\n' % (page[0], page[1]))
        else:
            extra.append(b'(prop "%s" %s)\n' % (rng.choice([b'P', b'S', b'a.b', b'']), rng.choice([b'page', b'text'])))
    return written(rng, kinds, drawn) + b''.join(extra)


def padded(text, length):
    """The register text with one more page, so that it has that many bytes."""
    left, forms = length - len(text) - len(b'(page "" "z")\n'), b''
    while left >= 10:
        size = left - 9 if left <= 73 else min(64, left - 9 - 10)
        forms, left = forms + CAT % (b'y' * size), left - 9 - size
    return text + b'(page "" "z"%s)\n' % forms


def at_a_limit(rng, kinds):
    over, which = rng.choice([0, 0, 1]), rng.randrange(4)
    if which == 0:
        more = {b'p%d' % number: b'number' for number in range(64 + over - len(kinds))}
        return written(rng, {**kinds, **more}, pages(rng, kinds, rng.randint(0, 9), 4))
    if which == 1:
        return written(rng, kinds, pages(rng, kinds, 256 + over, 2))
    if which == 2:
        drawn = pages(rng, kinds, rng.randint(1, 40), 0)
        for number in range(2048 + over):
            drawn[number % len(drawn)][2].append(CAT % (b'c%d' % rng.randrange(9)))
        return written(rng, kinds, drawn)
    return padded(written(rng, kinds, pages(rng, kinds, 120, 6)), 32768 + over)


def damaged(rng, text, tokens):
    for _ in range(rng.randint(1, 3)):
        start = rng.randint(0, len(text))
        end = min(len(text), start + rng.randint(0, 4))
        text = rng.choice([
            text[:start] + text[end:], text[:start] + rng.choice(tokens) + text[start:],
            text[:start] + rng.choice(tokens) + text[end:], text[:end] + text[start:],
            text[:start] + bytes([rng.randrange(256)]) + text[end:], text[:start]])
    return text


def register_text(rng, kinds):
    drawn = pages(rng, kinds, *rng.choice(SIZES))
    way = rng.random()
    if way < 0.82:
        return written(rng, kinds, drawn)
    if way < 0.9:
        return broken(rng, kinds, drawn)
    if way < 0.95:
        return damaged(rng, written(rng, kinds, drawn), REGISTER_TOKENS)
    return at_a_limit(rng, kinds)


def second_text(rng, kinds, first):
    """The same, another text of the same, other pages, another kind for one property, or a property less."""
    way, other = rng.random(), dict(kinds)
    if way < 0.25:
        return respelled(rng, first) if way < 0.12 and register_call(first)[0] == 0 else first
    if way < 0.6 and other:
        other[rng.choice(sorted(other))] = rng.choice([b'page', b'number', b'boolean', b'string'])
    elif way < 0.75 and other:
        del other[rng.choice(sorted(other))]
    return register_text(rng, other)


def dealt(rng, things):
    """Each thing in the first list, in the second, or in both."""
    lists = [], []
    for thing in things:
        which = rng.choice([(0,)] * 4 + [(1,)] * 4 + [(0, 1)])
        for one in which:
            lists[one].append(thing)
    return lists


def with_forms(rng, names, forms):
    """Pages of these names, each with those of the (name, form) that are its own; a form is written, or a property and a number."""
    written_forms = [(owner, one if isinstance(one, bytes) else VAL % (one[0], spelled(rng, (b'number', one[1])))) for owner, one in forms]
    return [[b'', name, [one for owner, one in written_forms if owner == name]] for name in names]


def some_numbers(rng, kinds, names):
    """(name, (property, number)), no two alike."""
    props = [prop for prop in kinds if kinds[prop] == b'number' for _ in range(rng.choice([0, 50, 100]))]
    return sorted({(rng.choice(names), (prop, rng.choice(NUMBERS))) for prop in props})


def filling(rng, size):
    """Categories of that many bytes together, all different."""
    names = []
    while size > 0:
        length = size if size <= 64 else min(rng.randint(16, 64), size - 8)
        names.append((b'z%04d' % len(names)).ljust(length, b'y')[:length])
        size -= length
    return names


def two_near_a_limit(rng, kinds):
    """Two texts which together are near one of the limits of a join, or over it; some of what they have is in both."""
    which, over = rng.randrange(4), rng.choice([-1, 0, 0, 1, 1, 2, 9])
    if which == 0:
        props = dealt(rng, [(b'p%d' % number, rng.choice([b'boolean', b'number', b'string'])) for number in range(64 + over - len(kinds))])
        return [written(rng, {**kinds, **dict(some)}, pages(rng, kinds, rng.randint(0, 6), 4)) for some in props]
    if which == 1:
        return [written(rng, kinds, some) for some in dealt(rng, pages(rng, kinds, 256 + over, 2))]
    names = [b'g%d' % number for number in range(rng.randint(1, 30))]
    if which == 2:
        some = [b'c%d' % number for number in range(2048 // len(names) + 1)]
        forms = [(name, CAT % category) for category in some for name in names][:2048 + over]
    else:
        forms = some_numbers(rng, kinds, names)
        used = sum(map(len, names)) + sum(map(len, kinds)) + sum(len(spelling((b'number', number))) for _, (_, number) in forms)
        forms += [(rng.choice(names), CAT % name) for name in filling(rng, 32768 + over - used)]
    first, second = dealt(rng, forms)
    known = {name for name, _ in second}
    return [written(rng, kinds, with_forms(rng, *one)) for one in ((names, first), ([name for name in names if name in known], second))]
