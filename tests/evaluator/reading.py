"""Query text to tree, with the refusals 12 to 16. No register is known here."""
import re
from functools import lru_cache
from typing import NamedTuple

from values import composed, is_name, is_namespace, is_property_name, is_value, read_reference, trim

COMPARATORS = (b'>>', b'<<', b'!', b'>', b'<')  # longest first
BARRED = b'[]|<>'
FREE = re.compile(rb'[^\[\]|<>]*')
BLANK_RUN = re.compile(rb'[ \n]*')
FIRST_MARK = re.compile(rb'::|\||<q>|\]\]')


class Query(NamedTuple):
    conjunctions: list  # lists of terms: Query (a group), Categories, Identifiers, Property


class Categories(NamedTuple):
    names: list


class Identifiers(NamedTuple):
    selectors: list  # Namespace, Reference


class Namespace(NamedTuple):
    name: bytes


class Reference(NamedTuple):
    comparator: bytes
    reference: tuple


class Property(NamedTuple):
    head: list
    alternatives: list  # Exists, Piece, Query (a subquery)


class Exists(NamedTuple):
    pass


class Piece(NamedTuple):
    comparator: bytes
    text: bytes


class NoReading(Exception):
    pass


def name_in(text):
    """A name composed; what breaks the rule is kept for the refusal."""
    return text if composed(text) is None else composed(text)


class Reader:
    """Reads on past what 14, 15 and 16 refuse, and keeps these in `faults`."""

    def __init__(self, text):
        self.text, self.at, self.faults = text, 0, set()

    def blanks(self):
        self.at = BLANK_RUN.match(self.text, self.at).end()

    def taken(self, word):
        stands = self.text.startswith(word, self.at)
        self.at += len(word) if stands else 0
        return stands

    def expect(self, word):
        if not self.taken(word):
            raise NoReading

    def want(self, number, kept):
        if not kept:
            self.faults.add(number)

    def query(self, depth):
        """A query, and inside <q> its </q> too. A level takes few frames: a text has up to 341."""
        self.want(14, depth <= 8)
        conjunctions = [[]]
        while True:
            self.blanks()
            conjunctions[-1].append(self.term(depth))
            self.blanks()
            if self.taken(b'OR'):
                conjunctions.append([])
            elif not self.taken(b'AND') and not self.text.startswith((b'[[', b'<q>'), self.at):
                break
        if depth > 0:
            self.expect(b'</q>')
        return Query(conjunctions)

    def term(self, depth):
        if self.taken(b'<q>'):
            return self.query(depth + 1)
        self.expect(b'[[')
        mark = FIRST_MARK.search(self.text, self.at)
        if mark and mark[0] == b'::':
            return self.property(self.text[self.at:mark.start()], mark.end(), depth)
        pieces = [self.piece()]
        while self.taken(b'||'):
            pieces.append(self.piece())
        self.expect(b']]')
        return self.plain(pieces)

    def property(self, head, end, depth):
        if any(byte in BARRED for byte in head):
            raise NoReading
        names = [trim(name) for name in head.split(b'.')]
        self.want(14, len(names) <= 8)
        self.want(15, all(map(is_property_name, names)))
        self.at = end
        alternatives = [self.alternative(depth)]
        while self.taken(b'||'):
            alternatives.append(self.alternative(depth))
        self.expect(b']]')
        return Property(list(map(name_in, names)), alternatives)

    def alternative(self, depth):
        self.blanks()
        if self.taken(b'<q>'):
            query = self.query(depth + 1)
            self.blanks()
            return query
        piece = self.piece()
        if piece == Piece(b'', b'+'):
            return Exists()
        self.want(16, is_value(piece.text))
        return piece

    def piece(self):
        self.blanks()
        comparator = next((word for word in COMPARATORS if self.taken(word)), b'')
        run = FREE.match(self.text, self.at)
        self.at = run.end()
        return Piece(comparator, trim(run[0]))

    def plain(self, pieces):
        """A body with no `::`: categories or identifiers."""
        before, colon, after = pieces[0].text.partition(b':')
        if pieces[0].comparator or not colon or trim(before) != b'Category':
            return Identifiers([self.identifier(piece) for piece in pieces])
        names = [trim(after)] + [piece.text for piece in pieces[1:]]
        self.want(15, all(map(is_name, names)) and not any(piece.comparator for piece in pieces))
        return Categories(list(map(name_in, names)))

    def identifier(self, piece):
        before, colon, after = piece.text.partition(b':')
        if not piece.comparator and colon and trim(after) == b'+':
            self.want(15, is_namespace(trim(before)))
            return Namespace(name_in(trim(before)))
        reference = read_reference(piece.text)
        self.want(15, reference is not None)
        return Reference(piece.comparator, reference)


@lru_cache(8)
def read_query(text):
    """(0, the tree) or (the lowest of 12 to 16 whose condition holds, None)."""
    if len(text) > 1024:
        return 12, None
    reader = Reader(text)
    try:
        tree = reader.query(0)
    except NoReading:
        return 13, None
    if reader.at < len(text):
        return 13, None
    return (min(reader.faults), None) if reader.faults else (0, tree)
