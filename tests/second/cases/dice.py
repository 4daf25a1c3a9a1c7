"""Seeded chance that is the same on every Python."""

import hashlib

MASK = 2 ** 64 - 1


class Dice:
    """A splitmix64 generator."""

    def __init__(self, *seed):
        text = "/".join(str(part) for part in seed)
        self.state = int.from_bytes(hashlib.sha256(text.encode()).digest()[:8], "big")

    def word(self):
        """Sixty-four bits."""
        self.state = (self.state + 0x9E3779B97F4A7C15) & MASK
        z = self.state
        z = ((z ^ (z >> 30)) * 0xBF58476D1CE4E5B9) & MASK
        z = ((z ^ (z >> 27)) * 0x94D049BB133111EB) & MASK
        return z ^ (z >> 31)

    def below(self, count):
        """0 to count-1."""
        return self.word() % count

    def between(self, low, high):
        """low to high, both included."""
        return low + self.below(high - low + 1)

    def chance(self, percent):
        """True in so many of a hundred cases."""
        return self.below(100) < percent

    def pick(self, choices):
        """One of a list."""
        return choices[self.below(len(choices))]

    def shuffled(self, items):
        """The items in a random order."""
        items = list(items)
        for i in range(len(items) - 1, 0, -1):
            j = self.below(i + 1)
            items[i], items[j] = items[j], items[i]
        return items

    def some(self, items, count):
        """So many of the items, in a random order, or all."""
        return self.shuffled(items)[:count]

    def data(self, length):
        """Random bytes."""
        words = [self.word().to_bytes(8, "big") for _ in range((length + 7) // 8)]
        return b"".join(words)[:length]
