"""A case that differs, made smaller while it still differs."""

import time

from .case import Case
from .json_cases import Members, json_bytes, read_pairs


def shrink(case, differs, seconds=60):
    """Drops pairs of words, files, lines, members and bytes as long as `differs` holds of what is left."""
    return Shrinker(case, differs, time.monotonic() + seconds).whole()


class Shrinker:
    def __init__(self, case, differs, until):
        self.case, self.differs, self.until = case, differs, until

    def whole(self):
        """Pass after pass, until one changes nothing."""
        while True:
            before = (self.case.words, dict(self.case.files))
            self.each_word()
            for name in sorted(self.case.files, key=lambda name: -len(self.case.files[name])):
                self.one_file(name)
            if (self.case.words, self.case.files) == before or time.monotonic() > self.until:
                return self.case

    def keep_if(self, smaller):
        """Takes the smaller case where it still differs."""
        if time.monotonic() > self.until or not self.differs(smaller):
            return False
        self.case = smaller
        return True

    def each_word(self):
        for count in (2, 1):
            self.drop_from(list(self.case.words), count, lambda words: Case(words, self.case.files))

    def one_file(self, name):
        def with_data(data):
            return Case(self.case.words, {**self.case.files, name: data})

        data = self.case.files[name]
        rest = {other: inner for other, inner in self.case.files.items() if other != name}
        if self.keep_if(Case(self.case.words, rest)):
            return
        tree = read_pairs(data) if name.endswith(".json") else None
        if tree is not None:
            self.each_member(tree, lambda: with_data(json_bytes(tree)))
            return
        if name.endswith(".txt"):
            lines = data.splitlines(keepends=True)
            self.drop_from(lines, 1, lambda lines: with_data(b"".join(lines)))
            return
        size = max(1, len(data) // 2)
        pieces = [data[i : i + 1] for i in range(len(data))]
        while size and len(pieces) // size < 600:
            pieces = self.drop_from(pieces, size, lambda pieces: with_data(b"".join(pieces)))
            size //= 2

    def drop_from(self, items, count, case_of):
        """Drops so many items at a place, from the end to the front; what is left of them."""
        for i in range(len(items) - count, -1, -count):
            smaller = items[:i] + items[i + count :]
            if self.keep_if(case_of(smaller)):
                items = smaller
        return items

    def each_member(self, holder, case_now):
        """Drops members and items from an object or array, and then from those in it."""
        if not isinstance(holder, list):
            return
        for i in range(len(holder) - 1, -1, -1):
            item = holder.pop(i)
            if self.keep_if(case_now()):
                continue
            holder.insert(i, item)
            self.each_member(item[1] if isinstance(holder, Members) else item, case_now)
