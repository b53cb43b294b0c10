"""Random choices that are the same on every machine: only `getrandbits` of a seeded generator is used."""

import random


class Dice(random.Random):
    def below(self, n):
        """A number from 0 to n - 1."""
        return self.getrandbits(64) % n

    def between(self, low, high):
        """A number from low to high, both taken."""
        return low + self.below(high - low + 1)

    def pick(self, items):
        return items[self.below(len(items))]
