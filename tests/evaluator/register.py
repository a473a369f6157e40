"""The register call: a text to a Register, or a number from 1 to 7. And what a register is, whether or not a text gives it."""
import re
from functools import lru_cache
from typing import NamedTuple

from values import composed, is_composed, is_name, is_namespace, is_property_name, is_storable, is_value, read_value, spelling

QUOTED = rb'"([^"\n]*)"'
FORM = rb' \((?:cat ' + QUOTED + rb'|val ' + QUOTED + rb' ' + QUOTED + rb')\)'
FORMS = re.compile(FORM)
PROP_LINE = re.compile(rb'\(prop ' + QUOTED + rb' (page|number|boolean|string)\)')
PAGE_LINE = re.compile(rb'\(page ' + QUOTED + rb' ' + QUOTED + rb'((?:' + FORM + rb')*)\)')


class Lines(NamedTuple):
    props: list  # (name, kind)
    pages: list  # (namespace, name, categories, values), values being (property, text)


class Page(NamedTuple):
    namespace: bytes
    name: bytes
    categories: list  # each once, in first-written order
    held: list  # (property, (kind, value)), each once, in first-written order
    values: dict  # the same by property: its list of (kind, value)


class Register(NamedTuple):
    kinds: dict  # property to kind, in the register's order
    pages: list
    places: dict  # (namespace, name) to place


def read_page(found):
    categories, values = [], []
    for form in FORMS.finditer(found[3]):
        if form[1] is None:
            values.append((form[2], form[3]))
        else:
            categories.append(form[1])
    return found[1], found[2], categories, values


def read_lines(text):
    """The lines of the two forms, or None."""
    lines = Lines([], [])
    if text and not text.endswith(b'\n'):
        return None
    for line in text.split(b'\n')[:-1]:
        prop, page = PROP_LINE.fullmatch(line), PAGE_LINE.fullmatch(line)
        if prop:
            lines.props.append((prop[1], prop[2]))
        elif page:
            lines.pages.append(read_page(page))
        else:
            return None
    return lines


def all_values(lines):
    return [value for page in lines.pages for value in page[3]]


def breaks_a_rule(lines):
    kept = all(is_property_name(name) for name, _ in lines.props)
    for namespace, name, categories, values in lines.pages:
        kept = kept and is_namespace(namespace) and is_name(name) and all(map(is_name, categories))
        kept = kept and all(is_property_name(prop) and is_value(text) for prop, text in values)
    return not kept


def composed_lines(lines):
    """The same with names composed; all of them keep the rule. Values stay as typed."""
    pages = [(composed(namespace), composed(name), list(map(composed, categories)), [(composed(prop), text) for prop, text in values])
             for namespace, name, categories, values in lines.pages]
    return Lines([(composed(name), kind) for name, kind in lines.props], pages)


def declares_twice(lines):
    names = {name for name, _ in lines.props}
    pages = {(namespace, name) for namespace, name, _, _ in lines.pages}
    return len(names) < len(lines.props) or len(pages) < len(lines.pages)


def lacks_a_prop_line(lines):
    kinds = dict(lines.props)
    return any(prop not in kinds for prop, _ in all_values(lines))


def has_an_unfit_value(lines):
    kinds = dict(lines.props)
    return any(read_value(kinds[prop], text) is None for prop, text in all_values(lines))


def is_over_a_limit(lines):
    forms = sum(len(categories) + len(values) for _, _, categories, values in lines.pages)
    return len(lines.props) > 64 or len(lines.pages) > 256 or forms > 2048


def page_of(namespace, name, categories, held):
    """A page; what is there twice counts once, where it stands first."""
    held, values = list(dict.fromkeys(held)), {}
    for prop, value in held:
        values.setdefault(prop, []).append(value)
    return Page(namespace, name, list(dict.fromkeys(categories)), held, values)


def register_of(props, pages):
    """A register of (name, kind) and pages, none of them twice."""
    return Register(dict(props), pages, {(page.namespace, page.name): place for place, page in enumerate(pages)})


def make_register(lines):
    kinds, pages = dict(lines.props), []
    for namespace, name, categories, values in lines.pages:
        held = [(prop, read_value(kinds[prop], text)) for prop, text in values]
        pages.append(page_of(namespace, name, categories, held))
    return register_of(lines.props, pages)


def listed(register):
    """All of a register in its order; two registers are the same where this is."""
    return list(register.kinds.items()), [page[:4] for page in register.pages]


def bytes_in(register):
    """The bytes of all names and values: property names once, all else at each occurrence, values at their shortest."""
    count = sum(map(len, register.kinds))
    for page in register.pages:
        count += len(page.namespace) + len(page.name) + sum(map(len, page.categories))
        count += sum(len(spelling(value)) for _, value in page.held)
    return count


def limits_passed(register):
    """Which of the four limits the register is over."""
    forms = sum(len(page.categories) + len(page.held) for page in register.pages)
    found = (('properties', len(register.kinds), 64), ('pages', len(register.pages), 256), ('forms', forms, 2048), ('bytes', bytes_in(register), 32768))
    return [name for name, count, most in found if count > most]


def is_page(page, kinds):
    kept = is_namespace(page.namespace) and is_name(page.name) and all(map(is_name, page.categories))
    kept = kept and all(map(is_composed, (page.namespace, page.name, *page.categories)))
    return kept and all(kinds.get(prop) == value[0] and is_storable(value) for prop, value in page.held)


def is_register(register):
    """The rules behind 3 to 6 and the limits."""
    kept = all(is_property_name(name) and is_composed(name) for name in register.kinds) and len(register.places) == len(register.pages)
    return kept and all(is_page(page, register.kinds) for page in register.pages) and not limits_passed(register)


CONDITIONS = (
    (4, declares_twice),
    (5, lacks_a_prop_line),
    (6, has_an_unfit_value),
    (7, is_over_a_limit),
)


@lru_cache(8)
def register_call(text):
    """(0, the register) or (the lowest number whose condition holds, None)."""
    if len(text) > 32768:
        return 1, None
    lines = read_lines(text)
    if lines is None:
        return 2, None
    if breaks_a_rule(lines):
        return 3, None
    lines = composed_lines(lines)
    for number, holds in CONDITIONS:
        if holds(lines):
            return number, None
    return 0, make_register(lines)
