"""The calls of our static library, asked by asker.c and compared with what must come. A case is one call with one input.

A question is a head (call, bytes that follow, place, five numbers, words of output, words of scratch, a salt for what these hold beforehand) and bytes;
calls 1 and 2 lend descriptions and a survey to all that follow. The answer is eight numbers, a status (guards or inputs changed), and of
output and scratch the words up to the last that isn't as it was."""
import collections
import hashlib
import os
import struct
import subprocess
import sys

import described
from stored import HERE

OURS = described.set_words(described.OURS)
NAMES = ("parse_hex", "parse_line", "read_dump", "check_descriptions", "check_survey", "describe", "field", "load", "adapter", "link_speed", "max_hop",
         "parent", "walk", "discover", "text", "our_descriptions")
CODES = {name: i for i, name in enumerate(NAMES, 3)}
HEAD = struct.Struct("<IIQ8I")
TOLD = struct.Struct("<8Q3I")
STATUS = {1: "guard words around the output", 2: "guard words around the scratch", 4: "words around the answer", 8: "an input"}
SHOWN = 12  # differences that are printed
PANICS = {5, 6, 8, 9, 10, 11, 12, 13}  # refusals that the Rust has no word for: it panics, fails or never ends

DRIVER = {1, 2, 4, 7, 14}  # refusals that the oracle's driver gives by itself: they count as document 01's


def packed(words):
    return struct.pack(f"<{len(words)}I", *words)


def lent(words, code):
    """Descriptions (1) or a survey (2) for what follows."""
    return HEAD.pack(code, 4 * len(words), 0, 0, 0, 0, 0, 0, 0, 0, 0) + packed(words)


def pattern(salt, i):
    return ((i + 1) * 0x9E3779B1 & 0xFFFFFFFF) ^ salt or 1


class Expected:
    """What must come: the eight numbers without the zeros at the end, the words of the output that are written, and whether the scratch is cleared."""
    __slots__ = ("answer", "words", "cleared")

    def __init__(self, answer, words=(), cleared=False):
        answer = [*answer, 0][:max(2, len(answer))]
        while len(answer) > 2 and answer[-1] == 0:
            answer.pop()
        self.answer, self.words, self.cleared = answer, words, cleared

    def __eq__(self, other):
        return self.answer == other.answer and list(self.words) == list(other.words) and self.cleared == other.cleared

    def __repr__(self):
        return " ".join(map(str, self.answer)) + (f", {len(self.words)} words " + hexes(self.words) if self.words else "")


def none():
    return Expected([0, 0])


def value(*numbers):
    return Expected([0, 1, *numbers])


def hexes(words):
    return " ".join(f"{w:08x}" for w in words)


class Case:
    """A call, its input, what it must come to by document 01, and the same by the Rust, where it can be asked."""
    __slots__ = ("name", "place", "numbers", "text", "room", "scratch", "rule", "rust", "got")

    def __init__(self, name, rule, rust=None, place=0, numbers=(), text=b"", room=0, scratch=0):
        self.name, self.place, self.numbers, self.text, self.room, self.scratch = name, place, numbers, text, room, scratch
        self.rule, self.rust, self.got = rule, rust, None

    def question(self, salt):
        numbers = (*self.numbers, 0, 0, 0, 0, 0)[:5]
        return HEAD.pack(CODES[self.name], len(self.text), self.place, *numbers, self.room, self.scratch, salt) + self.text

    def shown(self):
        parts = [self.name]
        if self.place or self.name in ("field", "adapter", "link_speed", "max_hop", "parent", "walk", "discover"):
            parts.append(f"place {self.place}")
        parts += [str(n) for n in self.numbers]
        if self.name in ("read_dump", "walk", "discover", "text", "our_descriptions"):
            parts.append(f"room {self.room}" + (f", scratch {self.scratch}" if self.name == "read_dump" else ""))
        if self.name in ("parse_hex", "parse_line", "read_dump", "field", "text"):
            parts.append(repr(self.text))
        return ", ".join(parts)


class Lent:
    """Descriptions and a survey that the cases after it go by; one that is None stays as it was."""
    __slots__ = ("descriptions", "survey")

    def __init__(self, descriptions=None, survey=None):
        self.descriptions, self.survey = descriptions, survey

    def question(self):
        return ((b"" if self.descriptions is None else lent(self.descriptions, 1)) + (b"" if self.survey is None else lent(self.survey, 2)))


ASKED = set()
BY_DESCRIPTIONS = {"check_descriptions", "describe", "field", "load", "adapter", "link_speed", "max_hop", "parent", "walk", "discover"}
BY_SURVEY = {"check_survey", "load", "adapter", "link_speed", "max_hop", "parent", "walk", "discover"}


def distinct(items):
    """The items without cases that were asked before."""
    descriptions = survey = b""
    for item in items:
        if isinstance(item, Lent):
            descriptions = descriptions if item.descriptions is None else packed(item.descriptions)
            survey = survey if item.survey is None else packed(item.survey)
        else:
            key = hashlib.blake2b(item.question(0), digest_size=16)
            key.update(b"d" + descriptions if item.name in BY_DESCRIPTIONS else b"")
            key.update(b"s" + survey if item.name in BY_SURVEY else b"")
            if key.digest() in ASKED:
                continue
            ASKED.add(key.digest())
        yield item


# ---- the library -------------------------------------------------------------------------------------


def built():
    """Builds the asker over the static library."""
    target = HERE / "target"
    library = HERE.parent / "crates" / "export" / "out" / "libexport.a"
    run = subprocess.run(["cc", "-std=gnu11", "-O2", "-Wall", "-Wextra", "-I", HERE.parent / "bindings", "-o", target / "asker", HERE / "asker.c",
                          library], check=False)
    if run.returncode != 0:
        sys.exit("compare: the asker isn't built")


def salted(n):
    return (n * 0x85EBCA6B + 0x1234567) & 0xFFFFFFFF


def asked(items, altered=None):
    """What the library answers to each case: the eight numbers, a status, the words up to the last one changed of output and scratch. None from the
    case on at which the asker ended."""
    data, n = [], 0
    for item in items:
        if isinstance(item, Lent):
            data.append(item.question())
        else:
            data.append(item.question(salted(n)))
            n += 1
    env = {**os.environ, **({"ASKER_ALTERED": altered} if altered else {})}
    run = subprocess.run([HERE / "target" / "asker"], input=b"".join(data), capture_output=True, check=False, env=env)
    if run.returncode > 0:
        sys.exit(f"compare: {run.stderr.decode().strip()}")
    said, at = [], 0
    while len(said) < n and at + TOLD.size <= len(run.stdout):
        told = TOLD.unpack_from(run.stdout, at)
        at += TOLD.size
        output = struct.unpack_from(f"<{told[9]}I", run.stdout, at)
        at += 4 * told[9]
        scratch = struct.unpack_from(f"<{told[10]}I", run.stdout, at)
        at += 4 * told[10]
        said.append((told[:8], told[8], output, scratch))
    return said + [None] * (n - len(said))


def buffer_fault(what, room, salt, words, touched):
    """How a lent buffer isn't those words with the rest as it was, or None."""
    if len(words) > room:
        return f"{what}: more words than there is room"
    held = [*touched, *(pattern(salt, i) for i in range(len(touched), len(words)))]
    for i in range(max(len(held), len(words))):
        wanted = words[i] if i < len(words) else pattern(salt, i)
        if held[i] != wanted:
            return f"{what} word {i} is {held[i]:08x}, not {wanted:08x}" + ("" if i < len(words) else ", as it was")
    return None


def fault(case, expected, said, salt):
    """How an answer isn't what is expected, or None."""
    if said is None:
        return "the call didn't come back"
    answer, status, output, scratch = said
    if list(answer) != (expected.answer + [0] * 8)[:8]:
        return "the answer"
    for bit, what in STATUS.items():
        if status & bit:
            return what + " changed"
    return (buffer_fault("output", case.room, salt, expected.words, output)
            or buffer_fault("scratch", case.scratch, ~salt & 0xFFFFFFFF, [0] * case.scratch if expected.cleared else [], scratch))


# ---- comparing ---------------------------------------------------------------------------------------


class Counts:
    """How many cases there are of each call, what they come to, and how often the Rust and document 01 differ."""

    def __init__(self):
        self.cases, self.differ, self.rust, self.panics = (collections.Counter() for _ in range(4))
        self.ends = collections.defaultdict(collections.Counter)
        self.printed = self.readings = 0

    def end(self, case):
        number, has = case.rule.answer[:2]
        return f"{number:2}" if number else "value" if has else "none"

    def count(self, case, name, differs):
        self.cases[name] += 1
        self.differ[name] += differs
        self.rust[name] += case.rust is not None and case.rust.answer[0] not in DRIVER
        self.panics[name] += case.rust is not None and case.rust.answer[0] in PANICS
        self.ends[name][self.end(case)] += 1


def told(case, held, why, unasked="not asked"):
    """A difference, with what is needed to ask again."""
    said = case.got
    print(f"differs: {case.shown()}: {why}")
    print(f"  document 01  {case.rule!r}")
    print(f"  the Rust     {unasked if case.rust is None else repr(case.rust)}")
    if said:
        print(f"  here         {' '.join(map(str, said[0]))}, output up to the last word changed: {hexes(said[2]) or '-'}, scratch: {hexes(said[3]) or '-'}")
    for what, names in (("descriptions", BY_DESCRIPTIONS), ("survey", BY_SURVEY)):
        words = getattr(held, what)
        if words is not None and case.name in names:
            print(f"  {what}: {'ours' if words == OURS else hexes(words)}")


def compared(counts, items, altered=None, shown=told):
    """Asks the library and compares; how many differ, of which the first are shown. Each answer is kept in its case."""
    said, n, held = asked(items, altered), 0, Lent()
    differ = 0
    for item in items:
        if isinstance(item, Lent):
            held = Lent(held.descriptions if item.descriptions is None else item.descriptions, held.survey if item.survey is None else item.survey)
            continue
        item.got = said[n]
        why = fault(item, item.rule, said[n], salted(n))
        if item.rust is not None and item.rust != item.rule:
            counts.readings += 1
            why = why or fault(item, item.rust, said[n], salted(n)) or "the Rust and document 01"
        counts.count(item, item.name, why is not None)
        differ += why is not None
        if why and counts.printed < SHOWN:
            counts.printed += 1
            shown(item, held, why)
        n += 1
        if why and item.got is None:
            break  # the cases after it weren't asked
    return differ
