"""Another text of the same register: other lines and forms between each other, repeats, other spellings of names and values."""
import re
import unicodedata

from register import composed_lines, read_lines
from values import read_value, spelling

WORDS = {True: [b'true', b'yes', b'1'], False: [b'false', b'no', b'0']}
COLONS = [b':', b':', b' :', b': ', b' : ', b'  :', b':  ', b'  :  ']
MAIN = [b'', b'', b'', b':', b':', b': ', b':  ']  # before a name of the main namespace
LETTER = re.compile(rb'[\xc3-\xc5][\x80-\xbf]')


def with_marks(name):
    """A name with each accented letter as a letter and a mark."""
    return unicodedata.normalize('NFD', name.decode()).encode()


def retyped(rng, text):
    """Some accented letters, or all of them, as a letter and a mark."""
    share = rng.choice([0.2, 0.5, 1])
    return LETTER.sub(lambda found: with_marks(found[0]) if rng.random() < share else found[0], text)


def typed(rng, name):
    """Another spelling of a name; the shortest where the one drawn is over 64 bytes."""
    text = retyped(rng, name)
    return text if len(text) <= 64 else name


def mixed(rng, one, other):
    """Both lists in one, each in its own order."""
    first, second, out = list(one), list(other), []
    while first or second:
        out.append((first if rng.random() * (len(first) + len(second)) < len(first) else second).pop(0))
    return out


def spelled_number(rng, number):
    """With more zeros before it, and behind its point where there is one."""
    whole, part = divmod(abs(number), 1000)
    minus = b'-' if number < 0 or (number == 0 and rng.random() < 0.3) else b''
    before, behind = (b'%d' % whole).rjust(rng.choice([1, 1, 1, 3, 15]), b'0'), b'%03d' % part
    places = rng.randint(len(behind.rstrip(b'0')), 3)
    return minus + before + (b'.' + behind[:places] if places else b'')


def spelled_boolean(rng, truth):
    return bytes(rng.choice([byte, byte ^ 32]) if byte >= 65 else byte for byte in rng.choice(WORDS[truth]))


def spelled_link(rng, link):
    namespace, name = link
    return typed(rng, namespace) + rng.choice(COLONS if namespace else MAIN) + typed(rng, name)


SPELLED = {b'string': lambda rng, text: text, b'number': spelled_number, b'boolean': spelled_boolean, b'page': spelled_link}


def spelled(rng, value):
    """A text of the value; the shortest where the one drawn is over 64 bytes."""
    text = SPELLED[value[0]](rng, value[1])
    return text if len(text) <= 64 else spelling(value)


def with_repeats(rng, forms):
    """Some forms a second time, anywhere behind the first."""
    out = []
    for form in forms:
        out.append(form)
        if rng.random() < 0.2:
            out.append(rng.choice(out))
    return out


def respelled(rng, text):
    """Another text of the register that an accepted text gives; its forms or bytes may be too many."""
    lines = composed_lines(read_lines(text))
    kinds, pages = dict(lines.props), []
    for namespace, name, categories, values in lines.pages:
        values = with_repeats(rng, [(prop, read_value(kinds[prop], one)) for prop, one in values])
        values = [b' (val "%s" "%s")' % (typed(rng, prop), spelled(rng, one)) for prop, one in values]
        categories = [b' (cat "%s")' % typed(rng, one) for one in with_repeats(rng, categories)]
        pages.append(b'(page "%s" "%s"%s)\n' % (typed(rng, namespace), typed(rng, name), b''.join(mixed(rng, categories, values))))
    return b''.join(mixed(rng, [b'(prop "%s" %s)\n' % (typed(rng, name), kind) for name, kind in lines.props], pages))
