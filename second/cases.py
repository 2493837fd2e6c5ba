"""Generator, digest and blocks, shared by all programs; rules in README.md."""

BLOCK = 1000
PRINTED_EVERY = 100
PRINTED_FIRST = 40


class CheckFailed(Exception):
    """A promise of the scope document that the computed numbers do not keep."""


class Generator:
    def __init__(self, seed):
        self.state = seed

    def draw(self):
        self.state = self.state * 48271 % 2147483647
        return self.state

    def skip(self, count):
        """As after so many draws."""
        self.state = self.state * pow(48271, count, 2147483647) % 2147483647

    def wide(self):
        a = self.draw()
        b = self.draw()
        return a * 2147483648 + b

    def under(self, n):
        return self.wide() % n

    def signed(self, magnitude):
        """`magnitude` with the sign drawn now."""
        return -magnitude if self.draw() % 2 == 1 else magnitude


def digest(h, line):
    """The digest `h` of the lines before, carried on over the bytes of `line`."""
    for byte in line:
        h = (h * 16777619 + byte + 1) % 4294967291
    return h


def fields(answer):
    """An outcome as it stands on a line."""
    return answer if isinstance(answer, tuple) else ("refused", answer)


def family(name, seed, size, case):
    """The printed bytes of a family.

    `case(generator, i)` gives the fields that follow the name on line i.
    """
    if size % BLOCK != 0:
        raise ValueError(f"family {name}: {size} is no multiple of {BLOCK}")
    generator = Generator(seed)
    printed = []
    h = 0
    for i in range(size):
        fields = (name, *case(generator, i))
        line = (" ".join(map(str, fields)) + "\n").encode("ascii")
        h = digest(h, line)
        if i < PRINTED_FIRST or i % PRINTED_EVERY == 0:
            printed.append(line)
        if (i + 1) % BLOCK == 0:
            printed.append(f"digest {name} {i + 1} {h}\n".encode("ascii"))
            h = 0
    return b"".join(printed)
