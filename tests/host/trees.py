"""Records of held trees that are made and not drawn: buffers and refusals, trees written node by node, one tree for nine registers, other
texts of one query, single bytes changed."""
import random

from records import case, fit_case, held_register, read_case, tree_edit_case  # finds the evaluator
import cases
import generate
from form import SIZE, encode
from handmade import ALL_NODES, HELD_SAMPLE, QUERY_FAULTS, SAMPLE, chosen
from join import join
from odd_trees import odd_trees
from query_form import SIZE as QUERY
from reading import read_query
from register import register_call, register_of
from respell_query import respelled_query
from tree_form import NODE, NODES, SIZE as TREE, STRINGS, encode as tree_bytes

NO_REGISTERS = (b'', HELD_SAMPLE[:-1], b'\xff' * SIZE)
NO_TREES = (b'', bytes(TREE), b'\xff' * TREE)


def tree_of(text):
    return tree_bytes(read_query(text)[1])


def lengths():
    """Buffers of each length, and inputs that are too short or too long."""
    texts = (b'[[D1]]', ALL_NODES, b'', b' ' * 1025, b' ' * 1024, b'[[Qty::1]]', b'[[a]] AND', b'[[Lot::~A]]')
    for length in (0, 1, TREE - 1, TREE, TREE + 1):
        yield from (read_case(text, length) for text in texts)
    tree = tree_of(b'[[Crates::>12]]')
    trees = (tree, tree + b'x', tree[:-1], tree_of(b'[[Qty::1]]'), tree_of(b'[[Crates::x]]'), tree_of(b'[[a]]' * 65), *NO_TREES)
    for length in (0, QUERY - 1, QUERY, QUERY + 1):
        yield from (fit_case(one, held, length) for one in trees for held in (HELD_SAMPLE, HELD_SAMPLE + b'x', *NO_REGISTERS))


def fault_sets():
    """Every set of a query's faults, in both orders: reading's lowest, or else fitting's."""
    for which in range(64):
        parts = [b'[[D1]]', *chosen(QUERY_FAULTS, which)]
        for text in (b''.join(parts), b' OR '.join(reversed(parts))):
            yield from (read_case(text + end, TREE - which % 2) for end in (b'', b' AND', b' ' * 1025))
            if read_query(text)[0] == 0:
                yield fit_case(tree_of(text), HELD_SAMPLE, QUERY - which % 2)


def odd():
    held = encode(register_of([(b'P', b'page'), (b'Q', b'page'), (b'R s', b'string')], []))
    for label, is_tree, tree in odd_trees():
        content, line, doubts = fit_case(tree, held, QUERY)
        yield content, line, doubts + ([f'{label} is stated'] if (line != '-34') != is_tree else [])
        yield fit_case(tree, HELD_SAMPLE, QUERY - 1)


def nine_registers():
    """One tree, with nine registers that answer in different ways."""
    texts = [SAMPLE, b'', *(one.encode() for one in (cases.STRINGS, cases.NO_LINKS, cases.UNDECLARED, cases.TABLE))]
    texts += [SAMPLE.replace(b'"Chilled" boolean', b'"Chilled" string'), SAMPLE.replace(b'"Lot" string', b'"Lot" page')]
    joined = encode(join(*(register_call(text)[1] for text in (SAMPLE, cases.TABLE.encode()))))
    forms = [*map(held_register, texts), joined]
    for text in (ALL_NODES, b'[[Crates::12]] OR [[Lot::A7]]', b'[[Brought by.In region::North]]', b'[[In region::>Talk:East||!:x]]', b'[[!a]]',
                 b'[[Has population::>1]]', b'[[Lot::>a:b]]'):
        yield from (fit_case(tree_of(text), held, QUERY) for held in forms)


def respellings():
    """Texts of one surface query: its tree is the one of each."""
    for number, (_, text, _) in enumerate(generate.cases('respellings', 300)):
        rng, (refusal, query) = random.Random(number), read_query(text)
        if refusal == 0:
            others = [respelled_query(rng, query) for _ in range(3)]
            doubts = ['another tree'] if any(read_query(one)[0] == 0 and tree_of(one) != tree_bytes(query) for one in others) else []
            yield from ((*read_case(one, TREE)[:2], doubts) for one in others)


def long_strings():
    """Held queries of up to 256 nodes whose names and strings are long."""
    name = b'p' * 64
    for kind, piece in ((b'string', b'>%011d'), (b'string', b'%05d'), (b'number', b'<%09d'), (b'number', b'!%d.5'), (b'page', b'!:x%d'), (b'page', b'>T:%d'),
                        (b'page', b'<<%d')):
        register = b'(prop "%s" %s)\n(page "" "a")\n' % (name, kind)
        for count in (1, 31, 32, 42, 43, 63, 64, 65, 128, 129):
            text = b'[[%s::%s]]' % (name, b'||'.join(piece % number for number in range(count)))
            yield case(register, text, register)


def used_places(tree):
    """The bytes of the nodes and strings that a tree has, and one behind them."""
    count, strings = int.from_bytes(tree[:2], 'little'), len(tree[STRINGS:].rstrip(b'\0'))
    return [*range(min(NODES + NODE * count + 1, STRINGS)), *range(STRINGS, min(STRINGS + strings + 1, TREE))]


def other_bytes(tree, places):
    return [(at, byte) for at in places for byte in range(256) if byte != tree[at]]


def edit_cases(tree, held, edits):
    yield from (tree_edit_case(tree, held, edits[start:start + 2000]) for start in range(0, len(edits), 2000))


def single_bytes():
    """Small trees with each byte that they use changed to every other value and each byte behind them once; some bytes of large ones."""
    rng = random.Random('single bytes of trees')
    for text in (b'[[D1||Talk:+]]', b'[[Category:Note]]OR[[!a]]', b'[[Brought by.In region::+||>D]]', b'[[\xc3\x96:\xc5\xbfa||\xc3\xa9]]'):
        tree = tree_of(text)
        yield from edit_cases(tree, HELD_SAMPLE, other_bytes(tree, used_places(tree)))
        yield from edit_cases(tree, HELD_SAMPLE, [(at, rng.randrange(1, 256)) for at in sorted({*range(TREE)} - {*used_places(tree)})])
    most = b'||'.join([b'a'] * 340)
    for text in (ALL_NODES, b'[[!a]]' * 128, b'<q>' * 8 + b'[[a]]OR[[b]]' + b'</q>[[Lot::A7]]' * 8, b'[[%s]]' % most):
        tree = tree_of(text)
        places = rng.choices(used_places(tree), k=500)
        yield from edit_cases(tree, HELD_SAMPLE, [(at, rng.choice([tree[at] ^ 1, (tree[at] + 1) % 256, (tree[at] - 1) % 256, rng.randrange(256)])) for at in places])


def made_trees():
    for some in (lengths, fault_sets, odd, nine_registers, respellings, long_strings, single_bytes):
        yield from some()
