"""What the program asklist writes, by this evaluator, for the files register.txt and query.txt of a folder.

`listing.py FOLDER` writes it. `listing.py --fill PAGES FOLDER` writes two such files with a long list: that many pages whose names fill
a register text, and a query that selects all of them."""
import os
import sys

from ask import ask
from query import query_call
from register import register_call

MOST_TEXT, MOST_NAME = 32768, 64
FRAME = len(b'(page "" "")\n')
MOST_LINE = FRAME + 2 * MOST_NAME


def listing(text, query):
    number, register = register_call(text)
    number, core = (number, None) if number else query_call(register, query)
    number, marks = (number, None) if number else ask(core, register)
    if number:
        return b'refused %d\n' % number
    lines = [b'pages %d\n' % sum(marks)]
    lines += [b'%d %s:%s\n' % (place, page.namespace, page.name) for place, page in enumerate(register.pages) if marks[place]]
    return b''.join(lines)


def long_page(place, size):
    """A page line of that many bytes: the name as long as it may be, and the rest in the namespace."""
    name = (b'page %03d ' % place).ljust(min(MOST_NAME, size - FRAME), b'n')
    return b'(page "%s" "%s")\n' % (b's' * (size - FRAME - len(name)), name)


def long_register(pages):
    """Lines as long as the text and the rules allow, and one more where it fits."""
    size = min(MOST_TEXT // pages, MOST_LINE)
    text = b''.join(long_page(place, size) for place in range(pages))
    left = min(MOST_TEXT - len(text), MOST_LINE)
    return text + (long_page(pages, left) if left > FRAME + len(b'page 000 ') else b'')


def path_of(folder, name):
    return os.path.join(folder, name)


def fill(folder, pages):
    for name, content in (('register.txt', long_register(pages)), ('query.txt', b'[[!a]]')):
        with open(path_of(folder, name), 'wb') as out:
            out.write(content)


def read(folder, name):
    with open(path_of(folder, name), 'rb') as stored:
        return stored.read()


def main(words):
    if words[0] == '--fill':
        fill(words[2], int(words[1]))
    else:
        sys.stdout.buffer.write(listing(read(words[0], 'register.txt'), read(words[0], 'query.txt')))


if __name__ == '__main__':
    main(sys.argv[1:])
