"""Names, references, values and kinds. Bytes are `bytes`; names are given composed."""
import re
import unicodedata
from decimal import Decimal
from functools import lru_cache

BLANKS = b' \n'
KINDS = [b'page', b'number', b'boolean', b'string']  # by their bytes in held forms
BIAS = 10 ** 18
SCALARS = {b'number': range(1, 2 * BIAS), b'boolean': range(2)}  # the codes of each
NUMBER = re.compile(rb'-?[0-9]{1,15}(?:\.[0-9]{1,3})?')
BOOLEANS = {b'true': True, b'yes': True, b'1': True, b'false': False, b'no': False, b'0': False}


# The marks that occur in decompositions of U+00C0 to U+017F.
MARKS = set(''.join(unicodedata.normalize('NFD', chr(code))[1:] for code in range(0xC0, 0x180)))


def trim(text):
    return text.strip(BLANKS)


@lru_cache(10000)
def keeps(text, barred):
    """What names and values share: 1 to 64 bytes, no control byte, none of the barred, no blank at an end."""
    allowed = all(byte >= 32 and byte != 127 and byte not in barred for byte in text)
    return 1 <= len(text) <= 64 and allowed and trim(text) == text


@lru_cache(10000)
def composed(text):
    """The composed form of the bytes of a name, None where its code points or marks break the rule."""
    try:
        typed = text.decode()
    except UnicodeDecodeError:
        return None
    whole = unicodedata.normalize('NFC', typed)
    allowed = all(32 <= ord(one) <= 126 or 0xA0 <= ord(one) <= 0x17F or one in MARKS for one in typed)
    return whole.encode() if allowed and all(one not in MARKS and ord(one) <= 0x17F for one in whole) else None


def is_name(text):
    """As typed."""
    return keeps(text, b'[]|<>:#{}_"') and text[:1] not in (b'!', b'~', b'+') and composed(text) is not None


def is_namespace(text):
    return text == b'' or is_name(text)


def is_property_name(text):
    return is_name(text) and b'.' not in text


def is_composed(text):
    return composed(text) == text


def is_value(text):
    return keeps(text, b'[]|<>"') and text[:1] != b'~'


def read_reference(text):
    """(namespace, name), the namespace None where none is written; None where the text is no reference."""
    before, colon, after = text.partition(b':')
    if not colon:
        return (None, composed(text)) if is_name(text) else None
    namespace, name = trim(before), trim(after)
    return (composed(namespace), composed(name)) if is_namespace(namespace) and is_name(name) else None


@lru_cache(10000)
def read_value(kind, text):
    """(kind, value), or None where the text is unfit for the kind. A number is its thousandths, a page (namespace, name)."""
    if kind == b'string':
        return kind, text
    if kind == b'number' and NUMBER.fullmatch(text):
        return kind, int(Decimal(text.decode()) * 1000)
    if kind == b'boolean' and text.lower() in BOOLEANS:
        return kind, BOOLEANS[text.lower()]
    if kind == b'page' and read_reference(text):
        namespace, name = read_reference(text)
        return kind, (namespace or b'', name)
    return None


def code_of(value):
    """The code of a scalar: a number's thousandths with 10^18 added, a boolean as 0 or 1."""
    kind, what = value
    return BIAS + what if kind == b'number' else int(what)


def scalar_of(kind, code):
    """The scalar of a code, or None where the kind has no such code."""
    if code not in SCALARS.get(kind, ()):
        return None
    return kind, code - BIAS if kind == b'number' else code == 1


def spelling(value):
    """The shortest text of a value."""
    kind, what = value
    if kind == b'number':
        return format((Decimal(what) / 1000).normalize(), 'f').encode()
    if kind == b'boolean':
        return b'true' if what else b'false'
    if kind == b'page':
        namespace, name = what
        return namespace + b':' + name if namespace else name
    return what


def is_storable(value):
    """Whether some text of the value keeps the rules: its shortest does."""
    return is_value(spelling(value)) and read_value(value[0], spelling(value)) == value
