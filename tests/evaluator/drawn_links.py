"""By what links the link nodes of a query select pages."""
from ask import refers
from core import Link, every_node
from query_form import TYPED

WAYS = [f'{comparator.decode()}{colon}x' for comparator in TYPED for colon in ('', ':')]


def way_of(link):
    """Its comparator, and whether a namespace is written, as in '>:x'."""
    return f"{link.comparator.decode()}{'' if link.reference[0] is None else ':'}x"


def named_by(link, register):
    """'no page' where a link that it is satisfied by leads to none, else 'page', or 'none' where no link satisfies it."""
    values = [value for page in register.pages for kind, value in page.values.get(link.prop, []) if kind == b'page']
    met = [value in register.places for value in values if refers(link.comparator, link.reference, value)]
    return 'none' if not met else 'page' if all(met) else 'no page'


def links_of(core, register):
    """(way, what it names) of each link node, those that are alike once."""
    return [(way_of(link), named_by(link, register)) for link in {node for node in every_node(core) if isinstance(node, Link)}]
