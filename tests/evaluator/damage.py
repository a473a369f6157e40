"""Forms that are changed, and forms of what is no register."""
import tree_form
from decimals import MOST
from form import BYTES, FORMS, PAGES, PROPS, SIZE, STARTS, TERMS, TEXTS, encode
from register import listed, page_of, register_of
from respell import with_marks

ROWS = ((PROPS, 3, 0), (PAGES, 2, 2), (STARTS, 2, 2), (FORMS, 2, None), (TERMS, 9, 4), (TEXTS, 2, 6))  # where, size, where the count is
BAD_NAMES = [b'', b'a:b', b'a ', b' a', b'!a', b'~a', b'+', b'a_b', b'a"', b'\x7f', b'n' * 65, b'a\0', b'a\n', b'a]', b'a|', b'\xc2\x80', b'\xff',
             b'a\xcc\x88', b'b\xcc\x88', b'\xc3\xa4\xcc\x88']
BAD_STRINGS = [b'', b' x', b'x ', b'~x', b'x"', b'<', b'>', b'[', b'\x1f', b'x' * 65, b'x\n']


def count_at(held, at):
    return int.from_bytes(held[at:at + 2], 'little')


def some_place(rng, held):
    """A byte of the form, those that hold something more often."""
    at, size, count = rng.choice(ROWS)
    rows = count_at(held, count) if count is not None else count_at(held, STARTS + 2 * count_at(held, 2))
    end = count_at(held, TEXTS + 2 * min(2368, count_at(held, 6)))
    return min(SIZE - 1, rng.choice([
        rng.randrange(8), at + rng.randrange(size * rows + size), at + rng.randrange(size * rows + 2 * size), BYTES + rng.randrange(end + 2),
        rng.randrange(SIZE)]))


def with_bytes_changed(rng, held):
    held = bytearray(held)
    for _ in range(rng.choice([1, 1, 1, 2, 3])):
        at = some_place(rng, held)
        held[at] = rng.choice([rng.randrange(256), held[at] ^ (1 << rng.randrange(8)), (held[at] + 1) % 256, (held[at] - 1) % 256])
    return bytes(held)


def with_rows_moved(rng, held):
    """Two rows of a region changed for each other, or one copied over another, or one taken out."""
    at, size, count = rng.choice(ROWS)
    rows = count_at(held, count) if count is not None else count_at(held, STARTS + 2 * count_at(held, 2))
    if rows < 2:
        return with_bytes_changed(rng, held)
    held, (one, other) = bytearray(held), (at + size * row for row in rng.sample(range(rows), 2))
    first, second = held[one:one + size], held[other:other + size]
    way = rng.randrange(3)
    held[one:one + size] = second
    if way == 0:
        held[other:other + size] = first
    if way == 2 and count is not None:
        held[one:at + size * rows] = held[one + size:at + size * rows] + bytes(size)
        held[count:count + 2] = (rows - 1).to_bytes(2, 'little')
    return bytes(held)


def damaged(rng, held):
    way = rng.random()
    if way < 0.02:
        return rng.choice([held[:-1], b'', bytes(SIZE), b'\xff' * SIZE, held + b'x', held[:rng.randrange(SIZE)]])
    return with_bytes_changed(rng, held) if way < 0.7 else with_rows_moved(rng, held)


def some_tree_place(rng, held):
    """A byte of a held tree: of its count, its nodes, its strings, or anywhere."""
    rows = tree_form.NODE * min(tree_form.MOST_NODES - 1, count_at(held, 0))
    strings = len(held[tree_form.STRINGS:].rstrip(b'\0'))
    return rng.choice([rng.randrange(2), tree_form.NODES + rng.randrange(rows + tree_form.NODE), tree_form.NODES + rng.randrange(rows + tree_form.NODE),
                       min(tree_form.SIZE - 1, tree_form.STRINGS + rng.randrange(strings + 2)), rng.randrange(tree_form.SIZE)])


def damaged_tree(rng, held):
    """Some bytes of a held tree changed, or two of its nodes for each other."""
    held = bytearray(held)
    if rng.random() < 0.2:
        one, other = (tree_form.NODES + tree_form.NODE * rng.randrange(count_at(held, 0)) for _ in range(2))
        held[one:one + tree_form.NODE], held[other:other + tree_form.NODE] = held[other:other + tree_form.NODE], held[one:one + tree_form.NODE]
    for _ in range(rng.choice([1, 1, 1, 2, 3])):
        at = some_tree_place(rng, held)
        held[at] = rng.choice([rng.randrange(256), held[at] ^ (1 << rng.randrange(8)), (held[at] + 1) % 256, (held[at] - 1) % 256, rng.randrange(12)])
    return bytes(held)


def broken(rng, register):
    """A register that breaks one rule, or seems to."""
    props, pages = list(register.kinds.items()), [list(page[:4]) for page in register.pages] or [[b'', b'a', [], []]]
    way, page = rng.randrange(9), rng.choice(pages)
    if way == 0:
        props.append((rng.choice([*BAD_NAMES, b'a.b', b'new']), b'string'))
    elif way == 1:
        page[0] = rng.choice([*BAD_NAMES[1:], b'a.b', b'n' * 64])
    elif way == 2:
        page[1] = rng.choice([*BAD_NAMES, b'a.b', b'n' * 64])
    elif way == 3:
        page[2] = page[2] + [rng.choice([*BAD_NAMES, b'a.b'])]
    else:
        prop, value = [
            (b'new S', (b'string', rng.choice([*BAD_STRINGS, b'a:b', b'a.b', b'+', b'!']))),
            (b'new N', (b'number', rng.choice([MOST + 1, -MOST - 1, MOST, -MOST, 0]))),
            (b'new L', (b'page', (rng.choice([*BAD_NAMES, b'n' * 31, b'n' * 32, b'a.b']), b'm' * 32))),
            (b'new L', (b'page', (rng.choice([b'', b'T']), rng.choice([*BAD_NAMES, b'n' * 64, b'n' * 62, b'n' * 63])))),
            (b'new B', (b'boolean', True)),
        ][way - 4]
        props, page[3] = [*props, (prop, value[0])], [*page[3], (prop, value)]
    return register_of(props, [page_of(*one) for one in pages])


def form_of_broken(rng, register):
    """The form that a register would have if it were one, where it fits."""
    held = encode(broken(rng, register))
    return held if len(held) == SIZE else held[:SIZE]


def with_names(thing, change):
    """The lists of a register, a core query or the nodes of a tree, each name changed; strings, and the values of a tree, stay."""
    if isinstance(thing, bytes):
        return change(thing)
    if not isinstance(thing, (list, tuple)) or thing[:1] in ((b'string',), (tree_form.VALUE,)):
        return thing
    parts = [with_names(part, change) for part in thing]
    return thing._make(parts) if hasattr(thing, '_make') else type(thing)(parts)


def uncomposed(rng, thing):
    """The same with one name that is not composed, wherever that name stands; None where it has no accented name."""
    found = set()
    with_names(thing, found.add)
    names = sorted(name for name in found if len(name) < len(with_marks(name)) <= 64)
    if not names:
        return None
    chosen = rng.choice(names)
    return with_names(thing, lambda name: with_marks(name) if name == chosen else name)


def uncomposed_register(rng, register):
    """The form that it would have, where it fits."""
    found = uncomposed(rng, listed(register))
    held = encode(register_of(found[0], [page_of(*page) for page in found[1]])) if found else b''
    return held if len(held) == SIZE else None
