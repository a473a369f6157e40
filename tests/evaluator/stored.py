"""The stored vectors. Where a later request overrules one, the file overruled.jsonl beside them has its new answers."""
import json
import os

INPUTS = ('label', 'register', 'query', 'second')


def objects_in(path):
    with open(path, encoding='utf-8') as lines:
        return [json.loads(line) for line in lines if line.strip()]


def by_label(path):
    found = objects_in(path)
    labelled = {one['label']: one for one in found}
    if len(labelled) < len(found):
        raise ValueError(f'{path}: a label stands there twice')
    return labelled


def with_answers(case, answers):
    """The case with other answers in place of its own."""
    inputs = {name: case[name] for name in INPUTS if name in case}
    if {*INPUTS} & {*answers} or {**inputs, **answers} == case:
        raise ValueError(f"{case['label']}: nothing is overruled, or more than the answers")
    return {**inputs, **answers}


def load(path):
    """The vectors of a file, each with the answers that hold now."""
    cases, overruled = by_label(path), by_label(os.path.join(os.path.dirname(path), 'overruled.jsonl'))
    for label, line in overruled.items():
        if label not in cases:
            raise ValueError(f'{label}: overruled, and no vector')
        cases[label] = with_answers(cases[label], line['answers'])
    return list(cases.values())
