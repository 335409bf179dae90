"""Numbers that look random, the same on every machine."""


class Chance:
    """Marsaglia's generator xorshift64 (2003)."""

    def __init__(self, seed):
        self.state = seed

    def below(self, count):
        self.state ^= self.state << 13 & 2**64 - 1
        self.state ^= self.state >> 7
        self.state ^= self.state << 17 & 2**64 - 1
        return (self.state >> 20) % count

    def one_of(self, items):
        return items[self.below(len(items))]
