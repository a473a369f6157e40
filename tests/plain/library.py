"""The calls of the plain implementation in bench/, made on buffers of their own size whose other bytes are looked at too."""
import ctypes
import os
import sys

sys.path.insert(0, os.path.join(os.path.dirname(os.path.abspath(__file__)), '..', 'evaluator'))

from form import SIZE
from query_form import SIZE as QUERY
from tree_form import SIZE as TREE

FILLING = b'\xa5'


class Library:
    def __init__(self, path):
        self.calls, self.faults = ctypes.CDLL(path), []

    def call(self, name, inputs, room, wrote):
        """(the refusal or 0, the number returned, the first `wrote` bytes of the buffer, which an acceptance writes, or None)."""
        lent = [ctypes.create_string_buffer(one, max(1, len(one))) for one in inputs]
        buffer = ctypes.create_string_buffer(FILLING * room, max(1, room))
        words = [word for block, one in zip(lent, inputs) for word in (block, ctypes.c_size_t(len(one)))]
        number = getattr(self.calls, name)(*words, buffer, ctypes.c_size_t(room))
        written = buffer.raw[:room]
        if any(block.raw[:len(one)] != one for block, one in zip(lent, inputs)):
            self.faults.append(f'{name}: an input is changed')
        kept = written[wrote if number >= 0 else 0:]
        if kept != FILLING * len(kept):
            self.faults.append(f'{name}: {number}, and bytes that are not its own are changed')
        return -number if number < 0 else 0, number, written[:wrote] if number >= 0 else None

    def register(self, text, room=SIZE):
        number, _, held = self.call('plain_register', [text], room, SIZE)
        return number, held

    def query(self, held, text, room=QUERY):
        number, _, made = self.call('plain_query', [held, text], room, QUERY)
        return number, made

    def read(self, text, room=TREE):
        number, _, tree = self.call('plain_read', [text], room, TREE)
        return number, tree

    def fit(self, tree, held, room=QUERY):
        number, _, made = self.call('plain_fit', [tree, held], room, QUERY)
        return number, made

    def ask(self, query, held, pages, room=256):
        """The number, how many are marked, and the marks."""
        number, count, marks = self.call('plain_ask', [query, held], room, pages)
        return number, count, None if marks is None else list(marks)

    def join(self, first, second, room=SIZE):
        number, _, held = self.call('plain_join', [first, second], room, SIZE)
        return number, held

    def is_register(self, held):
        block = ctypes.create_string_buffer(held, max(1, len(held)))
        return bool(self.calls.plain_is_register(block, ctypes.c_size_t(len(held))))
