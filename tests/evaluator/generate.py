"""Random registers and queries, the same for the same seed.

`cases(seed, count)` yields (register text, query text, text of a second register to run on).
`generate.py SEED COUNT` runs them on the evaluator and says which numbers they reach.
"""
import random
import sys
from collections import Counter

from random_queries import query_text
from random_registers import pages, register_text, second_text, some_kinds, two_near_a_limit, written
from register import register_call


def drawn_from(rng, kinds, first, second):
    """The register that a query is drawn from: mostly the first, which it is asked of, and always one that has pages."""
    register = register_call(first if rng.random() < 0.9 else second)[1]
    return register if register and register.pages else register_call(written(rng, kinds, pages(rng, kinds, 6, 6)))[1]


def cases(seed, count):
    for number in range(count):
        rng = random.Random(f'{seed} {number}')
        kinds = some_kinds(rng)
        if rng.random() < 0.03:
            first, second = two_near_a_limit(rng, kinds)
        else:
            first = register_text(rng, kinds)
            second = second_text(rng, kinds, first)
        yield first, query_text(rng, drawn_from(rng, kinds, first, second)), second


def main(words):
    from vectors import answers, differences
    seed, count = map(int, words)
    tally, failed = Counter(), 0
    for number, texts in enumerate(cases(seed, count)):
        case = dict(zip(('register', 'query', 'second'), (text.decode('latin-1') for text in texts)))
        found, differing = answers(case), differences(case)
        for name in ('register_number', 'query_number', 'second_number'):
            tally[name, found.get(name, '-')] += 1
        tally['marks', 'some' if '1' in (found.get('marks') or '') else 'none'] += 1
        failed += bool(differing)
        for line in differing:
            print(f'{seed} {number}: {line}')
    for (name, reached), times in sorted(tally.items(), key=str):
        print(name, reached, times)
    print(f'{count - failed} passed, {failed} failed')
    return failed


if __name__ == '__main__':
    sys.exit(1 if main(sys.argv[1:]) else 0)
