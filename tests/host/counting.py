"""What drawn cases come to: how often each call answers each number, a join is over each limit, a query selects pages, a link counts that leads to
no page, names are typed in two spellings, and decimals decide."""
from collections import Counter

from records import query_call, register_call  # finds the evaluator
import drawn_numbers
import typed_names
from ask import selected
from drawn_links import WAYS, links_of
from join import all_of_both
from register import limits_passed

READ = [0, *range(12, 17)]
NUMBERS = {'register': [*range(9)], 'read': [*READ, 33], 'fit': [0, 11, *range(17, 21), 34], 'query': [0, *range(11, 21)], 'ask': [0, *range(21, 25)], 'join': [0, 7, 8, 22, 32]}
LIMITS = ['properties', 'pages', 'forms', 'bytes']
# By the evaluator: a drawn case lends buffers long enough and held forms that are forms. All other numbers are counted by the host.
# Names are typed with combining marks in one place and composed in another, or in 64 bytes with such marks, or are not composed in a held form
# and refused by the number there. Numbers are typed in two spellings too; by each comparator, one of a register stands to one of a query because of
# what is behind their points, or is equal to it in another spelling.
DRAWN = {'register': [*range(8)], 'read': READ, 'query': [0, *range(12, 20)], 'join': [0, 7, 32], 'over': LIMITS,
         'marks': ['all', 'none', 'some'], 'nested': ['none', 'some'], 'links': ['no page', 'none', 'page'], 'links to no page': WAYS,
         'two spellings': ['in a join', 'in a query and its register', 'in a register', 'in a tree'],
         '64 bytes with marks': ['in a query', 'in a register'], 'uncomposed': [11, 21, 22, 34],
         'numbers in two spellings': ['in a join', 'in a register'], 'decimals': drawn_numbers.WAYS}
# At least so many in a hundred: of the queries accepted for a register and run on it, those that mark some of its pages and not all; of the
# subqueries that are inside another in the core queries of these (so a chain is subqueries too), those that select a page of it; of the link
# nodes in them, those that a link to no page satisfies; of the numbers in accepted registers and queries, those that are not whole.
SHARES = {('marks', 'some'): 50, ('nested', 'some'): 45, ('links', 'no page'): 20, ('numbers held', 'decimal'): 50, ('numbers asked for', 'decimal'): 50}
FEWEST_CASES = 2000  # with fewer, something rare may not be drawn


def joins_drawn(first, second, number):
    """The join of two texts, and the limit that it is over, if it is over one alone."""
    yield 'join', number
    if number == 7:
        over = limits_passed(all_of_both(register_call(first)[1], register_call(second)[1]))
        yield 'over', over[0] if len(over) == 1 else 'several'


def runs_drawn(first, query, marks):
    """An accepted query, which is run on its register: what it marks, what the subqueries inside others select, and what its links name."""
    yield 'marks', 'none' if '1' not in marks else 'some' if '0' in marks else 'all'
    register, subqueries = register_call(first)[1], []
    core = query_call(register, query)[1]
    selected(core, register, subqueries)
    yield from (('nested', 'some' if pages else 'none') for inside, pages in subqueries if inside)
    for way, named in links_of(core, register):
        yield 'links', named
        if named == 'no page':
            yield 'links to no page', way


def typed_in(texts, words, kept):
    """The names or numbers of accepted texts: of both registers, of the query, and of the second register again where the two are joined."""
    first, query, second = texts
    one, two = (kept.in_register(text) if word == '0' else set() for text, word in zip((first, second), words))
    asked = kept.in_query(query, register_call(first)[1].kinds) if words[0] == '0' == words[2] else set()
    return one, two, asked, two if number_behind('join', words) == 0 else set()


def names_drawn(texts, words):
    """How the names of accepted texts are typed."""
    one, two, asked, joined = typed_in(texts, words, typed_names)
    pairs = ('in a register', one, one), ('in a register', two, two), ('in a query and its register', asked, one), ('in a join', one, joined)
    yield from (('two spellings', place) for place, some, others in pairs if typed_names.in_two_spellings(some, others))
    if number_behind('read', words) == 0 and typed_names.marked(typed_names.in_query(texts[1], {})):
        yield 'two spellings', 'in a tree'
    for place, some in (('in a register', one), ('in a register', two), ('in a query', asked)):
        if any(len(name) == 64 for name in typed_names.marked(some)):
            yield '64 bytes with marks', place


def numbers_drawn(texts, words):
    """How the numbers of accepted texts are typed, and what they decide."""
    one, _, asked, joined = typed_in(texts, words, drawn_numbers)
    for place, some in (('numbers held', one), ('numbers asked for', asked)):
        yield from ((place, drawn_numbers.share(text)) for *_, text in some)
    pairs = ('in a register', one, one), ('in a join', one, joined)
    yield from (('numbers in two spellings', place) for place, some, others in pairs if drawn_numbers.in_two_spellings(some, others))
    yield from (('decimals', way) for way in drawn_numbers.ways_decided(asked, one))


def number_behind(word, words):
    """The refusal, or None where the call was not made."""
    return -int(words[words.index(word) + 1]) if word in words else None


def drawn(texts, line):
    """The events of a drawn case, by the line that the evaluator gives."""
    first, query, second = texts
    words = line.split()
    found = Counter(('register', -int(word)) for word in words[:2])
    found['read', number_behind('read', words)] += 1
    if words[0] == '0':
        found['query', -int(words[2])] += 1
        found.update(runs_drawn(first, query, words[4]) if words[2] == '0' else ())
    if 'join' in words:
        found.update(joins_drawn(first, second, number_behind('join', words)))
    found.update(names_drawn(texts, words))
    found.update(numbers_drawn(texts, words))
    return found


def missing(wanted, found):
    return [f'no {name}: {one}' for name, all_of in wanted.items() for one in all_of if not found[name, one]]


def share(found, name, one):
    """How many in a hundred of those of the name."""
    return 100 * found[name, one] / (sum(count for (of, _), count in found.items() if of == name) or 1)


def shares(found):
    for (name, one), least in SHARES.items():
        yield f'{name}: {one} in {share(found, name, one):.1f} of a hundred, at least {least}'


def too_few(found):
    return [f'too few: {line}' for line, (name, least) in zip(shares(found), SHARES.items()) if share(found, *name) < least]


def lines(found, names):
    """One line for each of the names: what it came to, and how often."""
    for name in names:
        ones = sorted((one, count) for (of, one), count in found.items() if of == name)
        yield f'{name}: ' + ', '.join(f'{one} {count:,} times' for one, count in ones)
