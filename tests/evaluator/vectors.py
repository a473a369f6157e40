"""Runs the vectors: `vectors.py PATH` prints what differs, and last how many passed and failed."""
import sys

from ask import ask, direct
from query import nodes, query_call
from register import register_call
from stored import load


def digits(marks):
    return None if marks is None else ''.join(map(str, marks))


def answers(case):
    """What the evaluator says of a case, in the case's own words."""
    number, register = register_call(case['register'].encode('latin-1'))
    found = {'register_number': number}
    if number:
        return found
    text = case['query'].encode('latin-1')
    found['pages'] = len(register.pages)
    found['query_number'], core = query_call(register, text)
    if found['query_number']:
        return found
    run_number, marks = ask(core, register)
    found.update(nodes=nodes(core), count=sum(marks or []), marks=digits(marks), run_number=run_number)
    found['direct'] = digits(direct(text, register))
    if 'second' in case:
        _, second = register_call(case['second'].encode('latin-1'))
        found['second_number'], marks = ask(core, second)
        found['second_marks'], found['second_direct'] = digits(marks), digits(direct(text, second))
    return found


def differences(case):
    found = answers(case)
    differing = [f'{name}: {found.get(name)!r}, not {wanted!r}' for name, wanted in case.items()
                 if name not in ('label', 'register', 'query', 'second') and found.get(name) != wanted]
    if found.get('run_number', 0) or found.get('marks') != found.get('direct'):
        differing.append(f"run {found['run_number']} {found['marks']}, direct {found['direct']}")
    if found.get('second_number') == 0 and found['second_marks'] != found['second_direct']:
        differing.append(f"second run {found['second_marks']}, direct {found['second_direct']}")
    return differing


def run(cases):
    passed = failed = 0
    for case in cases:
        differing = differences(case)
        for line in differing:
            print(f"{case['label']}: {line}")
        passed, failed = passed + (not differing), failed + bool(differing)
    print(f'{passed} passed, {failed} failed')
    return failed


def main(words):
    if len(words) != 1:
        sys.exit(__doc__)
    sys.exit(1 if run(load(words[0])) else 0)


if __name__ == '__main__':
    main(sys.argv[1:])
