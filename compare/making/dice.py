"""Chances that one seed decides, the same on every machine."""

import random


class Dice:
    """Draws through random() alone: of all draws, Python promises to keep only its sequence from version to version."""

    def __init__(self, seed):
        self.source = random.Random(seed)

    def below(self, limit):
        return int(self.source.random() * limit)

    def between(self, low, high):
        return low + self.below(high - low + 1)

    def chance(self, percent):
        return percent > 0 and self.below(100) < percent

    def pick(self, choices):
        return choices[self.below(len(choices))]

    def weighted(self, pairs):
        """One of the values of a list of (weight, value)."""
        mark = self.below(sum(weight for weight, _ in pairs))
        for weight, value in pairs:
            if mark < weight:
                return value
            mark -= weight

    def shuffled(self, items):
        items = list(items)
        for last in range(len(items) - 1, 0, -1):
            other = self.below(last + 1)
            items[last], items[other] = items[other], items[last]
        return items

    def some(self, items, percent):
        """Each item with this chance, in an order of its own."""
        return self.shuffled(item for item in items if self.chance(percent))

    def flipped(self, text):
        """The text with each letter in a case of its own."""
        return ''.join(letter.swapcase() if self.chance(50) else letter for letter in text)
