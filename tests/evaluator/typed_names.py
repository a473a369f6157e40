"""The names of accepted texts as they are typed: of one name, the spelling with marks and the composed one."""
from reading import Piece, Reader
from register import composed_lines, read_lines
from values import composed, trim


def sides(references):
    return [trim(side) for one in references for side in one.split(b':')]


def in_register(text):
    lines = read_lines(text)
    kinds, names = dict(composed_lines(lines).props), [name for name, _ in lines.props]
    for namespace, name, categories, values in lines.pages:
        names += [namespace, name, *categories, *(prop for prop, _ in values)]
        names += sides(one for prop, one in values if kinds[composed(prop)] == b'page')
    return {*names}


class TypedReader(Reader):
    """Keeps the names of a query that it reads; those in pieces too, on page properties."""

    def __init__(self, text, kinds):
        super().__init__(text)
        self.kinds, self.names = kinds, []

    def property(self, head, end, depth):
        self.names += map(trim, head.split(b'.'))
        body = super().property(head, end, depth)
        if self.kinds.get(body.head[-1]) == b'page':
            self.names += sides(one.text for one in body.alternatives if isinstance(one, Piece))
        return body

    def plain(self, pieces):
        self.names += sides(piece.text for piece in pieces)
        return super().plain(pieces)


def in_query(text, kinds):
    reader = TypedReader(text, kinds)
    reader.query(0)
    return {*reader.names}


def marked(names):
    """Those typed with marks."""
    return {name for name in names if composed(name) != name}


def in_two_spellings(some, others):
    """Whether a name is typed with marks in the one place and composed in the other."""
    return any(composed(name) in others for name in marked(some)) or any(composed(name) in some for name in marked(others))
