"""Names as bytes, most of them breaking the name rule by one thing, and where they stand in texts and held forms."""
import library  # finds the evaluator
import query_form
from core import Article, Category, Existence, InNamespace, Link, Subquery, Value
from register import page_of, register_of
from tree_form import BARE, CATEGORY, EXISTS, NAMESPACE, PROPERTY, QUALIFIED, VALUE, Node, lay
from values import MARKS

NO_MARKS = '\u0305\u0309\u030d\u0326\u0329\u0345'
LETTERS = [chr(code) for code in (*range(32, 127), *range(0x80, 0x190))]
SIXTY_FOUR = 'a' + '\u0105' * 9 + 'a\u0308' * 15  # as typed
SOME = [name.encode() for name in (
    'a', '\u00e4', 'a\u0308', 'b\u0308', '\u0308', '\u0308a', 'a\u0308\u0308', '\u00e4\u0308', 'a \u0308', 'a\u0308 ', '\u00a0', 'a\u00a0', '\u00a0\u0308', '\u009f',
    '\u017f', '\u0180', '\u1ea1', 'a\u0308.', '.\u00e4', '!\u00e4', '+\u0308', '\u00e4+', '~a\u0308', 'A\u030ae\u0301', SIXTY_FOUR, SIXTY_FOUR + 'n', '\u00e4' * 32,
    '\u00e4' * 32 + 'n', 'a\u0308' * 21, 'a\u0308' * 21 + 'n', 'a\u0308' * 21 + 'nn')]
SOME += [b'\xc3', b'a\xcc', b'\xa4', b'a\x88', b'\xcc\x88\xcc\x88', b'\xc3\xa4\xa4', b'\xc3\xc3\xa4', b'\xc1\xa1', b'\xe0\x83\xa4', b'\xed\xa0\x80', b'\xff', b'\xc2\x9f']


def all_names():
    """Every letter with every mark, every first byte of several with every second, and some others."""
    yield from ((letter + mark).encode() for letter in LETTERS for mark in [*sorted(MARKS), *NO_MARKS])
    yield from (b'a' + bytes([first, second]) for first in range(0x80, 0x100) for second in (range(0x100) if first in range(0xC0, 0xCF) else (0x80, 0xA0, 0xBF, 0x61)))
    yield from SOME


def trees(name):
    """The name as it is, wherever a tree has one; of a value it is a piece."""
    yield lay([Node(BARE, second=name)])
    yield lay([Node(CATEGORY, second=name)])
    yield lay([Node(NAMESPACE, first=name)])
    yield lay([Node(QUALIFIED, first=name, second=b'x', comparator=b'!')])
    yield lay([Node(EXISTS), Node(PROPERTY, second=name)])
    yield lay([Node(VALUE, second=name), Node(PROPERTY, second=b'P')])
    yield lay([Node(VALUE, second=name), Node(PROPERTY, second=b'S')])


def queries(name):
    """The same of held queries; of a value it is a string."""
    for core in (Category(name), InNamespace(name), Existence(name), Subquery(name, InNamespace(b'')), Article('>', name),
                 Value(name, '=', (b'number', 1)), Value(b'S', '<', (b'string', name)), Link(name, b'', (None, b'x')), Link(b'P', b'>', (name, b'x')),
                 Link(b'P', b'!', (None, name))):
        yield query_form.held_query(core)


def registers(name):
    """What would be registers if the name kept the rule, as a string too."""
    yield register_of([(name, b'number')], [])
    for namespace, article, categories in ((b'', name, []), (name, b'a', []), (b'', b'a', [name])):
        yield register_of([], [page_of(namespace, article, categories, [])])
    for kind, value in ((b'page', (b'', name)), (b'page', (name, b'a')), (b'string', name)):
        yield register_of([(b'V', kind)], [page_of(b'', b'a', [], [(b'V', (kind, value))])])


def texts(name, other):
    """Register texts with the name, and with another spelling of it, in each place."""
    props = b'(prop "L" page)\n(prop "S" string)\n'
    for line in (b'(prop "%s" number)\n', b'(page "" "%s")\n', b'(page "%s" "a")\n', b'(page "" "a" (cat "%s"))\n', b'(page "" "a" (val "L" "%s"))\n',
                 b'(page "" "a" (val "L" "%s : b"))\n', b'(page "" "a" (val "S" "%s"))\n'):
        yield props + line % name
        yield props + line % name + line.replace(b'"a"', b'"b"') % other
    yield props + b'(prop "%s" number)\n(page "" "a" (val "%s" "1") (cat "%s") (cat "%s"))\n' % (name, other, name, other)
    yield props + b'(page "" "a" (val "L" "%s") (val "L" ":%s") (val "S" "%s") (val "S" "%s"))\n' % (name, other, name, other)
