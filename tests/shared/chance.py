"""Random choices for vectors that are stored."""
import random


class Chance(random.Random):
    """By random() alone, which gives the same numbers in every version of Python."""
    def below(self, n):
        return int(self.random() * n)

    def one_of(self, choices):
        return choices[self.below(len(choices))]

    def some(self, counts, part):
        """As many parts as one of the counts says, one after the other."""
        return ''.join(part() for _ in range(self.one_of(counts)))
