"""Numbers from a seed, by which each script here makes its inputs: the same numbers for a seed on each machine, whatever Python runs there."""


class Generator:
    """A linear congruential generator with Knuth's constants, of whose state the high bits are given. Neighbouring seeds begin far apart."""

    def __init__(self, seed):
        self.state = seed * 0x9E3779B97F4A7C15
        self.below(1)

    def below(self, bound):
        """A number below a bound, or 0 where the bound is 0."""
        self.state = (self.state * 6364136223846793005 + 1442695040888963407) % (1 << 64)
        return (self.state >> 33) % bound if bound else 0

    def once_in(self, times):
        return self.below(times) == 0

    def one_of(self, items):
        return items[self.below(len(items))]
