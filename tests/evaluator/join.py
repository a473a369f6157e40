"""The join of two registers."""
from register import limits_passed, page_of, register_of


def have_two_kinds(first, second):
    return any(second.kinds.get(name, kind) != kind for name, kind in first.kinds.items())


def join_page(page, second):
    """The page with what the second register has of it."""
    place = second.places.get((page.namespace, page.name))
    if place is None:
        return page
    other = second.pages[place]
    return page_of(page.namespace, page.name, page.categories + other.categories, page.held + other.held)


def all_of_both(first, second):
    """The register of both, whether or not it is within the limits, where no property has two kinds."""
    pages = [join_page(page, second) for page in first.pages]
    pages += [page for page in second.pages if (page.namespace, page.name) not in first.places]
    return register_of({**first.kinds, **second.kinds}.items(), pages)


def join(first, second):
    """The register of both; or 32 where a property has two kinds, or 7 where the two are too large together."""
    if have_two_kinds(first, second):
        return 32
    register = all_of_both(first, second)
    return 7 if limits_passed(register) else register
