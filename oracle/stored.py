"""What the scripts make-* share: numbers from one seed, and files of stored answers written or compared."""
import pathlib
import sys

SEED = 0x5DE2AC9D53
HERE = pathlib.Path(__file__).resolve().parent
CRATES = HERE.parent / "crates"
RELOADED = ("loads", "other-loads", "load-rules", "walks", "walk-rules", "discoveries", "discovery-rules")  # crates/reload's; the others are crates/replay's
LIMIT = 1_000_000  # bytes of a file, at most: the replay reads a file whole


class Chance:
    """Numbers from the seed (splitmix64): the same with every version of Python."""

    def __init__(self, name):
        self.state = SEED
        for b in name.encode():
            self.state = (self.state * 257 + b) % 2**64

    def word(self):
        self.state = (self.state + 0x9E3779B97F4A7C15) % 2**64
        z = self.state
        z = (z ^ z >> 30) * 0xBF58476D1CE4E5B9 % 2**64
        z = (z ^ z >> 27) * 0x94D049BB133111EB % 2**64
        return z ^ z >> 31

    def below(self, n):
        return self.word() % n

    def one_of(self, items):
        return items[self.below(len(items))]

    def mixed(self, items):
        items = list(items)
        for i in range(len(items) - 1, 0, -1):
            j = self.below(i + 1)
            items[i], items[j] = items[j], items[i]
        return items


def checking(doc):
    """Whether --check was asked for; any other argument prints what a script is for."""
    if sys.argv[1:] not in ([], ["--check"]):
        sys.exit(doc)
    return sys.argv[1:] == ["--check"]


def row(*numbers):
    """A case without input: words."""
    return "-" + "".join(f" {n:08x}" for n in numbers)


def flipped(line, mark):
    """A case with the lowest bit of one of its words flipped: the answer that is wrong on purpose."""
    parts = line.split(" ")
    parts[mark] = f"{int(parts[mark], 16) ^ 1:08x}"
    return " ".join(parts)


def store(name, rows, altered, check):
    """Writes a file, or ends with a message where it isn't what would be written."""
    text = "".join(r + "\n" for r in rows)
    if len(text) >= LIMIT:
        sys.exit(f"{name} has {len(text)} bytes")
    path = CRATES / ("reload" if name in RELOADED else "replay") / "data" / name
    if not check:
        path.write_text(text)
    elif not path.exists() or path.read_text() != text:
        sys.exit(f"{name} isn't what would be written")
    print(f"{name}: {len(rows)} cases, line {altered} altered, {len(text)} bytes")
