"""Odd values, and a random source with a few words of its own."""

import random


class Dice(random.Random):
    def one_in(self, n):
        return self.randrange(n) == 0

    def some(self, items, most):
        """Up to `most` of the items, in any order."""
        return self.sample(items, self.randint(0, min(most, len(items))))

    def weighted(self, **weights):
        return self.choices(list(weights), list(weights.values()))[0]


def broken_bytes(dice, data):
    """The bytes with one to three of them changed, taken out or put in, or a piece taken out or doubled."""
    data = bytearray(data)
    for _ in range(dice.choice((1, 1, 2, 3))):
        at = dice.randint(0, len(data))
        kind = dice.randrange(6)
        if kind == 0 and at < len(data):
            data[at] = dice.choice((0, 0xFF, 0x80, 0x22, 0x0A, 0x2C, 0x7F, dice.randrange(256)))
        elif kind == 1 and at < len(data):
            del data[at]
        elif kind == 2:
            data.insert(at, dice.choice((0x20, 0x09, 0x22, 0x2C, 0x0A, 0x0D, 0xC3, dice.randrange(256))))
        elif kind == 3 and at < len(data):
            data[at] ^= 1 << dice.randrange(8)
        elif kind == 4:
            del data[at : at + dice.randint(1, 12)]
        else:
            end = at + dice.randint(1, 12)
            data[at:at] = data[at:end]
    if dice.one_in(6):
        del data[dice.randint(0, len(data)) :]
    return bytes(data)
