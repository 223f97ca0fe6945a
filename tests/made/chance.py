"""Chances, of which random scripts are made."""
import random


class Chance:
    """Draws from `random.Random(seed).random()` alone. Of all that `random` has, this alone is promised to stay the same in
    later versions of Python, so that a seed keeps its script."""

    def __init__(self, seed):
        self.draw = random.Random(seed).random
        # How many of the integers are the least or the greatest one.
        self.extreme = 0.15 if self.happens(0.06) else 0.008

    def happens(self, share):
        """Whether something happens that happens in this share of all cases."""
        return self.draw() < share

    def number(self, low, high):
        """A number from low to high, both included."""
        return low + int(self.draw() * (high - low + 1))

    def one(self, things):
        """One of these things."""
        return things[int(self.draw() * len(things))]

    def several(self, things, count):
        """So many of these things, or all where there are fewer, in any order."""
        left = list(things)
        return [left.pop(int(self.draw() * len(left))) for _ in range(min(count, len(left)))]

    def weighed(self, *choices):
        """One of these things, each with its weight before it."""
        return self.one([thing for weight, thing in choices for _ in range(weight)])
