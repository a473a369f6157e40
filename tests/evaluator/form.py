"""Held registers by docs/LAYOUT.md, as one dictionary of texts and terms: `encode` writes one, `decode` reads one or says None."""
import struct

from register import is_register, page_of, register_of
from values import KINDS, SCALARS, code_of, scalar_of

MOST_PROPS, MOST_PAGES, MOST_FORMS, MOST_TERMS, MOST_TEXTS, MOST_BYTES = 64, 256, 2048, 2048, 2368, 35136
PROPS = 8
PAGES = PROPS + 3 * MOST_PROPS
STARTS = PAGES + 2 * MOST_PAGES
FORMS = STARTS + 2 * (MOST_PAGES + 1)
TERMS = FORMS + 2 * MOST_FORMS
TEXTS = TERMS + 9 * MOST_TERMS
BYTES = TEXTS + 2 * (MOST_TEXTS + 1)
SIZE = BYTES + MOST_BYTES


def two(number):
    return number.to_bytes(2, 'little')


# Texts and terms.

def text_of(namespace, name):
    return bytes([len(namespace)]) + namespace + name


def parts_of(text):
    """Namespace and name."""
    return text[1:1 + text[0]], text[1 + text[0]:]


def value_text(value):
    """The text that a string or a link is, or None."""
    kind, what = value
    if kind == b'string':
        return text_of(b'', what)
    return text_of(*what) if kind == b'page' else None


def texts_of(register):
    found = {text_of(b'', name) for name in register.kinds}
    for page in register.pages:
        found.add(text_of(page.namespace, page.name))
        found.update(text_of(b'', category) for category in page.categories)
        found.update(value_text(value) for _, value in page.held)
    return sorted(found - {None})


def term_bytes(group, code):
    """A term as it lies. Terms ascend by these bytes."""
    return bytes([group]) + code.to_bytes(8, 'little')


# Writing.

def numbered(ascending):
    return {one: number for number, one in enumerate(ascending)}


def starts_of(parts):
    """Where each part begins, and where the last one ends."""
    starts = [0]
    for part in parts:
        starts.append(starts[-1] + len(part))
    return starts


class Terms:
    """The terms of a register's pages, by the numbers of its texts and properties."""

    def __init__(self, register, texts):
        self.texts, self.groups = texts, {name: place + 1 for place, name in enumerate(register.kinds)}

    def value(self, prop, value):
        return term_bytes(self.groups[prop], code_of(value) if value[0] in SCALARS else self.texts[value_text(value)])

    def page(self, page):
        categories = [term_bytes(0, self.texts[text_of(b'', name)]) for name in page.categories]
        return categories + [self.value(prop, value) for prop, value in page.held]


def lay(props, pages, starts, forms, terms, texts):
    """The bytes of rows: properties are (kind, number of a text), terms and texts are bytes, all else is numbers."""
    regions = (
        (PROPS, map(two, map(len, (props, pages, terms, texts)))),
        (PAGES, (bytes([kind]) + two(text) for kind, text in props)),
        (STARTS, map(two, pages)),
        (FORMS, map(two, starts)),
        (TERMS, map(two, forms)),
        (TEXTS, terms),
        (BYTES, map(two, starts_of(texts))),
        (SIZE, texts),
    )
    held = b''
    for end, rows in regions:
        held = (held + b''.join(rows)).ljust(end, b'\0')
    return held


def encode(register):
    """The form of a register that keeps the rules and the limits."""
    texts = texts_of(register)
    number_of_text = numbered(texts)
    found = Terms(register, number_of_text)
    forms = [found.page(page) for page in register.pages]
    terms = sorted({term for page in forms for term in page})
    number_of_term = numbered(terms)
    return lay(
        [(KINDS.index(kind), number_of_text[text_of(b'', name)]) for name, kind in register.kinds.items()],
        [number_of_text[text_of(page.namespace, page.name)] for page in register.pages],
        starts_of(forms),
        [number_of_term[term] for page in forms for term in page],
        terms,
        texts)


# Reading.

class NoForm(Exception):
    pass


def need(kept):
    if not kept:
        raise NoForm


def numbers_at(held, at, count):
    return struct.unpack_from(f'<{count}H', held, at)


def parted(all_parts, starts):
    """What lies from each start up to the next."""
    need(starts[0] == 0 and list(starts) == sorted(starts) and starts[-1] <= len(all_parts))
    return [all_parts[start:end] for start, end in zip(starts, starts[1:])]


def at_number(rows, number):
    need(number < len(rows))
    return rows[number]


def name_in(text):
    """The name in a text of no namespace."""
    namespace, name = parts_of(text)
    need(namespace == b'')
    return name


def value_in(kind, code, texts):
    if kind in SCALARS:
        value = scalar_of(kind, code)
        need(value)
        return value
    text = at_number(texts, code)
    return kind, parts_of(text) if kind == b'page' else name_in(text)


def term_in(row, props, texts):
    """(None, category) or (property, value)."""
    group, code = row[0], int.from_bytes(row[1:], 'little')
    if group == 0:
        return None, name_in(at_number(texts, code))
    name, kind = at_number(props, group - 1)
    return name, value_in(kind, code, texts)


def read(held):
    """The register that bytes say, if they are a form."""
    props, pages, terms, texts = numbers_at(held, 0, 4)
    need(props <= MOST_PROPS and pages <= MOST_PAGES and terms <= MOST_TERMS and texts <= MOST_TEXTS)
    texts = parted(held[BYTES:SIZE], numbers_at(held, TEXTS, texts + 1))
    need(all(texts))
    rows = [(held[at], *numbers_at(held, at + 1, 1)) for at in range(PROPS, PROPS + 3 * props, 3)]
    props = [(name_in(at_number(texts, text)), at_number(KINDS, kind)) for kind, text in rows]
    terms = [term_in(held[at:at + 9], props, texts) for at in range(TERMS, TERMS + 9 * terms, 9)]
    starts = numbers_at(held, STARTS, pages + 1)
    forms = parted(numbers_at(held, FORMS, MOST_FORMS), starts)
    made = []
    for text, numbers in zip(numbers_at(held, PAGES, pages), forms):
        found = [at_number(terms, number) for number in numbers]
        categories = [what for prop, what in found if prop is None]
        made.append(page_of(*parts_of(at_number(texts, text)), categories, [one for one in found if one[0] is not None]))
    return register_of(props, made)


def decode(held):
    """The register whose form the first bytes are, or None."""
    held = bytes(held[:SIZE])
    if len(held) < SIZE:
        return None
    try:
        register = read(held)
    except NoForm:
        return None
    return register if is_register(register) and encode(register) == held else None
