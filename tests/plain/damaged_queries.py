"""Held queries with some bytes changed."""
import library  # finds the evaluator
from query_form import HEAP, NODE, NODES, SIZE


def some_place(rng, held):
    """A byte of the count, of the nodes, of the names and strings, or anywhere."""
    rows, names = NODE * int.from_bytes(held[:2], 'little'), len(held[HEAP:].rstrip(b'\0'))
    return min(SIZE - 1, rng.choice([rng.randrange(2), *[NODES + rng.randrange(rows + NODE)] * 3, *[HEAP + rng.randrange(names + 2)] * 3, rng.randrange(SIZE)]))


def damaged_query(rng, held):
    held = bytearray(held)
    for _ in range(rng.choice([1, 1, 1, 2, 3])):
        at = some_place(rng, held)
        held[at] = rng.choice([rng.randrange(256), held[at] ^ (1 << rng.randrange(8)), (held[at] + 1) % 256, rng.randrange(10)])
    return bytes(held)
