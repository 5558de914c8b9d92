"""Random choices, the same ones for the same seed: those of PCG32 with the stream 54."""
MULTIPLIER = 6364136223846793005
INCREMENT = 54 << 1 | 1
WORD = (1 << 64) - 1


class Choices:
    """A source of choices."""

    def __init__(self, seed):
        self.state = seed + INCREMENT & WORD
        self.step()

    def step(self):
        self.state = self.state * MULTIPLIER + INCREMENT & WORD

    def word(self):
        state = self.state
        self.step()
        mixed = (state >> 18 ^ state) >> 27 & 0xFFFFFFFF
        turn = state >> 59
        return (mixed >> turn | mixed << (32 - turn)) & 0xFFFFFFFF

    def below(self, count):
        """A number below another one."""
        return self.word() % count

    def one_of(self, texts):
        return texts[self.below(len(texts))]
