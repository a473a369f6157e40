"""Runs the calls from C on many cases and compares every number, mark and form with the separate evaluator.

`calls.py HOST VECTORS SEED COUNT`: the papers' examples, the vectors, edges, names in two spellings, decimals, forged forms, and COUNT random cases."""
import os
import random
import subprocess
import sys
import tempfile
from collections import Counter
from multiprocessing import Pool

from records import ask_case, case, fit_case, held_register, join_case, query_case  # finds the evaluator
import cases
import counting
import generate
import query_form
import tree_form
from damage import damaged, damaged_tree, form_of_broken
from form import SIZE
from handmade import handmade, stated
from joins import made_joins
from query import nodes, query_call
from reading import read_query
from register import register_call
from spellings import made_spellings, uncomposed_forms, wanting
from stored import load
from thousandths import made_decimals
from trees import made_trees

CHUNK = 500


def damaged_query(rng, held, end):
    """Some bytes of a held query changed, its header, its nodes up to `end` and its first strings more often."""
    held = bytearray(held)
    for _ in range(rng.choice([1, 1, 2, 3])):
        places = rng.randrange(2), rng.randrange(end), query_form.NODES + rng.randrange(120), query_form.HEAP + rng.randrange(60)
        at = rng.choice([*places, rng.randrange(len(held))])
        held[at] = rng.choice([rng.randrange(256), held[at] ^ (1 << rng.randrange(8)), rng.randrange(10), (held[at] + 1) % 256])
    return bytes(held)


def forged(rng, first, query, second):
    """The forms of an accepted case, then damaged ones, each with the number that its bytes deserve."""
    register, other = register_call(first)[1], register_call(second)[1]
    core = query_call(register, query)[1] if register else None
    if core is None:
        return
    held, made, tree = held_register(first), query_form.held_query(core), tree_form.encode(read_query(query)[1])
    for _ in range(3):
        yield fit_case(damaged_tree(rng, tree), held, query_form.SIZE)
        yield ask_case(damaged_query(rng, made, query_form.NODES + query_form.NODE * nodes(core)), held, 256)
    for bad in (damaged(rng, held), damaged(rng, held), form_of_broken(rng, register)):
        yield ask_case(made, bad, 256)
        yield query_case(bad, query, query_form.SIZE)
        yield fit_case(tree, bad, query_form.SIZE)
        pair = (bad, held_register(second) if other else held)
        yield join_case(*pair[::rng.choice([1, -1])], SIZE)


def numbers_in(printed):
    """How often each call returned each number, from the host's last lines."""
    found = Counter()
    for words in (line.split() for line in printed if line.startswith('numbers')):
        for word in words[2:]:
            number, count = word.split(':')
            found[words[1], int(number)] += int(count)
    return found


def run_host(host, made):
    """How many records, what differs (one line each), and how often each call has returned each number."""
    with tempfile.NamedTemporaryFile(delete=False) as out:
        out.write(b''.join(one[0] for one in made))
    done = subprocess.run([host, out.name], stdout=subprocess.PIPE, check=False)
    os.unlink(out.name)
    printed = done.stdout.decode('latin-1').split('\n')
    bad = []
    for at, (content, wanted, doubts) in enumerate(made):
        got = printed[at] if at < len(printed) else None
        if doubts or got != wanted:
            bad.append(f'{content[:1]} {content[5:125]!r}: {got!r}, not {wanted!r} {doubts}')
    found = numbers_in(printed)
    if done.returncode or not found:
        bad.append(f'the host ended with {done.returncode}')
    return len(made), bad, found


def run_stated(job):
    host, vectors = job
    return run_host(host, [*map(stated, [*load(vectors), *cases.cases()]), *handmade()])


def run_joins(job):
    return run_host(job, list(made_joins()))


def run_trees(job):
    return run_host(job, list(made_trees()))


def run_spellings(job):
    return run_host(job, list(made_spellings()))


def run_decimals(job):
    return run_host(job, list(made_decimals()))


def run_drawn(job):
    """The same, and what the drawn cases come to."""
    host, seed, count = job
    rng, made, events = random.Random(seed), [], Counter()
    for number, texts in enumerate(generate.cases(seed, count)):
        made.append(case(*texts, forgeries=2))
        events += counting.drawn(texts, made[-1][1])
        if number % 4 == 0:
            made += forged(rng, *texts)
            for refusal, one in uncomposed_forms(rng, *texts[:2]):
                made.append(wanting(one, refusal))
                events['uncomposed', refusal] += 1
    return (*run_host(host, made), events)


def not_reached(count, results, drawn):
    """The numbers that no call returned, what none of the drawn cases came to, and what too few of them came to."""
    found = counting.missing(counting.NUMBERS, sum((result[2] for result in results), Counter()))
    return found + (counting.missing(counting.DRAWN, drawn) + counting.too_few(drawn) if count >= counting.FEWEST_CASES else [])


def main(host, vectors, seed, count):
    count = int(count)
    jobs = [(host, f'{seed} {start}', min(CHUNK, count - start)) for start in range(0, count, CHUNK)]
    with Pool(min(2, os.cpu_count() or 1)) as pool:
        first = [pool.apply_async(run, (host,)) for run in (run_joins, run_trees, run_spellings, run_decimals)]
        first.append(pool.apply_async(run_stated, ((host, vectors),)))
        results = [*pool.imap_unordered(run_drawn, jobs)]
        drawn, calls = (sum((result[at] for result in results), Counter()) for at in (3, 2))
        results += [one.get() for one in first]
    bad = [line for result in results for line in result[1]] + not_reached(count, results, drawn)
    print(f'{count:,} drawn cases came to')
    print('\n'.join([*counting.lines(drawn, counting.DRAWN), *counting.shares(drawn)]))
    print('The calls made on them, with buffers too short and forms damaged too, returned')
    print('\n'.join(counting.lines(calls, counting.NUMBERS)))
    for line in bad[:20]:
        print(line[:600])
    print(f'{max(0, sum(result[0] for result in results) - len(bad))} passed, {len(bad)} failed')
    return len(bad)


if __name__ == '__main__':
    sys.exit(main(*sys.argv[1:]) > 0)
