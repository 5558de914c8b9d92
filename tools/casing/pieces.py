"""The ways in which the bytes of a run are cut."""
import random
import zlib

MOST_PIECES = 2_000
LONGEST = 48


def sized(given, size):
    """The bytes in pieces of this size."""
    return [given[at : at + size] for at in range(0, len(given), size)]


def at_random(given, seed):
    """The bytes in pieces of random sizes, of which there are not too many."""
    chance = random.Random(seed)
    longest = max(LONGEST, 2 * len(given) // MOST_PIECES)
    pieces, place = [], 0
    while place < len(given):
        size = chance.randint(1, longest)
        pieces.append(given[place : place + size])
        place += size
    return pieces


class Cut:
    """A way to cut: whole, in pieces of one size, or in random pieces by a seed."""

    def __init__(self, name, size=None, seed=None):
        self.name, self.size, self.seed = name, size, seed

    def is_whole(self):
        return self.size is None and self.seed is None

    def pieces(self, given):
        """The pieces of these bytes; those of a long text are longer than the size asks."""
        if self.is_whole():
            return [given] if given else []
        if self.size is None:
            return at_random(given, self.seed)
        return sized(given, max(self.size, len(given) // MOST_PIECES))


WHOLE = Cut("whole")


def longest_of(run):
    """How many bytes come at most on one stream of a run."""
    streams = [run.input(), *(each.given for each in run.connections + run.peers)]
    return max(len(stream) for stream in streams)


def cuts_of(run):
    """The ways in which a run's bytes are cut."""
    longest = longest_of(run)
    if longest < 2:
        return [WHOLE]
    kind, _, seed = run.pieces.partition(" ")
    if kind == "every":
        return [WHOLE, *(Cut(f"in pieces of {size}", size=size) for size in range(1, longest))]
    seed = int(seed) if seed else zlib.crc32(run.place.encode())
    bytewise = Cut("byte by byte", size=1)
    return [WHOLE, bytewise, Cut(f"in random pieces of seed {seed}", seed=seed)]
