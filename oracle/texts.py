"""Document 01's program read into Python: its text as survey words, and what it prints; loading and discovery are reading.py's. make-texts compares
the Rust's answers with it, make-text-rules its own. Also files of texts: a case is a line, the text as hex pairs (`-` for none), a blank, and
what is printed as hex pairs."""
import collections
import re
import sys

import reading
from described import OURS, set_words
from stored import HERE, LIMIT

DATA = HERE.parent / "crates" / "retext" / "data"
MOST_BYTES = 65536
ROOM = 16384  # words of each adapter's answer
DESCRIBED = set_words(OURS)
KINDS = "USB 3", "DisplayPort", "PCIe", "DMA"
NAMES = "USB 3 Down", "USB 3 Up", "Video", "AUX TX", "AUX RX", "PCIe Down", "PCIe Up", "DMA TX", "DMA RX"


# ---- numbers and lines (modules 1 and 3) ---------------------------------------------------------


def tokens(line):
    return [t for t in re.split(rb"[ \t\n\x0c\r]", line) if t]


def hex_number(t, bits):
    """One `0x` dropped, then one `+`, then digits of either case."""
    found = re.fullmatch(rb"(?:0x)?\+?([0-9A-Fa-f]+)", t)
    return int(found[1], 16) if found and int(found[1], 16) < 2**bits else None


def decimal_number(t, bits):
    found = re.fullmatch(rb"\+?([0-9]+)", t)
    return int(found[1]) if found and int(found[1]) < 2**bits else None


def record(line):
    """Offset, relative offset, cap id, vs id and value, or None."""
    t = tokens(line)
    if line[:1] == b"#" or len(t) < 4:
        return None
    ids = [0, 0] if len(t) == 4 else [hex_number(t[2], 16), hex_number(t[3], 16)]
    found = [hex_number(t[0], 16), decimal_number(t[1], 16), *ids, hex_number(t[min(len(t) - 1, 4)], 32)]
    return None if None in found else found


# ---- the text --------------------------------------------------------------------------------------


class Text:
    """A text as it is read. `dump` is what records go to, None outside a dump; `may` has the markers without numbers that may come next, in
    their order: one that is taken leaves those after it."""

    def __init__(self):
        self.devices, self.dump, self.may = [], None, []

    def marker(self, t):
        """Whether a marker is good and may stand here."""
        name = t[0].decode("ascii")
        if name in ("@router", "@xdomain"):
            return len(t) == 3 and self.device(name, decimal_number(t[1], 32), hex_number(t[2], 64))
        if name == "@adapter":
            return len(t) == 2 and self.adapter(decimal_number(t[1], 16))
        return len(t) == 1 and name in self.may and self.plain(name)

    def device(self, name, domain, route):
        if domain is None or route is None:
            return False
        kind = 1 if name == "@router" else 2
        self.devices.append({"kind": kind, "usb4": 0, "read": 0, "domain": domain, "route": route, "regs": [], "adapters": []})
        self.dump, self.may = None, ["@usb4", "@regs"] if kind == 1 else ["@usb4"]
        return True

    def adapter(self, number):
        if not self.devices or number is None or not 1 <= number <= 255:
            return False
        self.devices[-1]["adapters"].append({"number": number, "read": 0, "paths": 0, "regs": [], "path_regs": []})
        self.dump, self.may = None, ["@regs", "@paths", "@nopaths"]
        return True

    def plain(self, name):
        device = self.devices[-1]
        owner = device["adapters"][-1] if device["adapters"] else device
        self.may = [] if name == "@paths" else self.may[self.may.index(name) + 1:]
        self.dump = None
        if name == "@usb4":
            owner["usb4"] = 1
        elif name == "@regs":
            owner["read"], self.dump = 1, owner["regs"]
        elif name == "@paths":
            owner["paths"], self.dump = 1, owner["path_regs"]
        else:
            owner["paths"] = 2
        return True

    def line(self, line):
        if line[:1] == b"@":
            return self.marker(tokens(line))
        found = record(line)
        if found and self.dump is not None:
            self.dump.append(found)
        return not found or self.dump is not None

    def words(self):
        words = []
        for d in self.devices:
            words += [3 << 28 | d["kind"] << 24 | d["read"] << 1 | d["usb4"], d["domain"], d["route"] % 2**32, d["route"] >> 32]
            words += register_words(0, d["regs"])
            for a in d["adapters"]:
                words += [4 << 28 | a["paths"] << 9 | a["read"] << 8 | a["number"], *register_words(0, a["regs"]), *register_words(1, a["path_regs"])]
        return words


def register_words(space, regs):
    """The records of a dump by offset, equal offsets as they stand."""
    return [w for o, relative, cap, vs, value in sorted(regs, key=lambda r: r[0])
            for w in (5 << 28 | space << 16 | o, relative << 16 | cap, vs, value)]


def survey_words(text):
    """The survey words of a text: 2, 1 or 4 where there are none. 4 comes with the words made so far."""
    if len(text) > MOST_BYTES:
        raise reading.Refused(2, len(text))
    if not text.isascii():
        raise reading.Refused(1, next(i for i, b in enumerate(text) if b > 127))
    made = Text()
    if not all(made.line(line) for line in text.split(b"\n")):
        raise reading.Refused(4, len(made.words()))
    words = made.words()
    if len(words) > reading.LONGEST:
        raise reading.Refused(4, reading.LONGEST)
    return words


# ---- what is printed -------------------------------------------------------------------------------


def tunnel_lines(type_, paths):
    place, number = paths[0][1][0][:2]
    yield f"{KINDS[type_]} from {place}:{number} paths {len(paths)} {'closed' if reading.closed(paths) else 'open'}"
    for name, hops in paths:
        yield f"{NAMES[name]} hops {len(hops)}"
        yield from (" ".join(map(str, h)) for h in hops)


def found_lines(words):
    """The lines of all adapters in order."""
    found, devices = reading.load(DESCRIBED, words)
    lines, count, walks = [], 0, reading.Walks(found, devices)
    for place, d in enumerate(devices):
        for a in d["adapters"]:
            tunnels = reading.discover(walks, place, a) or []
            if sum(len(reading.tunnel_words(*t)) for t in tunnels) > ROOM:
                raise reading.Refused(2)
            count += len(tunnels)
            lines += [line for t in tunnels for line in tunnel_lines(*t)]
    return [f"tunnels {count}", *lines]


def printed(text):
    """All that the program writes."""
    try:
        lines = found_lines(survey_words(text))
    except reading.Refused as r:
        lines = [f"refused {r.number}"]
    return "".join(line + "\n" for line in lines).encode()


def kind_of(answer):
    """In short, for counting."""
    first = answer.split(b"\n")[0].decode()
    return first if first.startswith("refused") or first == "tunnels 0" else "tunnels"


# ---- files -----------------------------------------------------------------------------------------


def row(text, answer):
    return f"{text.hex() or '-'} {answer.hex()}"


def altered(answer):
    """With the lowest bit of its last byte but the LF flipped, a digit: the answer that is wrong on purpose."""
    return answer[:-2] + bytes([answer[-2] ^ 1]) + answer[-1:]


def store(name, cases, check):
    """Writes a file, or ends with a message where it isn't what would be written. The case in the middle is the altered one."""
    at = len(cases) // 2
    rows = [row(t, altered(a) if i == at else a) for i, (t, a) in enumerate(cases)]
    data = "".join(r + "\n" for r in rows)
    if len(data) >= LIMIT:
        sys.exit(f"{name} has {len(data)} bytes")
    path = DATA / name
    if not check:
        path.write_text(data)
    elif not path.exists() or path.read_text() != data:
        sys.exit(f"{name} isn't what would be written")
    met = collections.Counter(kind_of(a) for _, a in cases)
    print(f"{name}: {len(rows)} cases, line {at + 1} altered, {len(data)} bytes; " + ", ".join(f"{k}: {met[k]}" for k in sorted(met)))


def stored(name):
    """The cases of a file, as they were before one was altered."""
    cases = [line.split(" ") for line in (DATA / name).read_text().split("\n")[:-1]]
    cases = [(bytes.fromhex(t.replace("-", "")), bytes.fromhex(a)) for t, a in cases]
    at = len(cases) // 2
    cases[at] = cases[at][0], altered(cases[at][1])
    return cases
