"""Cases for compare, from a seed: each with what document 01 says (reading.py, texts.py) and what the Rust says, where it can be asked."""
import collections
import copy
import importlib.machinery
import importlib.util
import json
import os
import subprocess
import sys
import tempfile

import reading
import rule
import texts
import tunnels
import ways
from calls import Case, Expected, Lent, asked, none, value
from described import FAVOURED, OURS, SPACES, TYPES, gen_t, hidden, other_sets, set_words, shortened, vendored, wide, without
from fabric import surveys
from rule import refused, short, some, tried
from stored import HERE, Chance


def script(name):
    """A script of this folder, for what it makes cases with."""
    loader = importlib.machinery.SourceFileLoader(name.replace("-", "_"), str(HERE / name))
    module = importlib.util.module_from_spec(importlib.util.spec_from_loader(loader.name, loader))
    loader.exec_module(module)
    return module


answers, names, lists, written = map(script, ("make-answers", "make-names", "make-surveys", "make-texts"))
OUR_WORDS = set_words(OURS)
LOST, FIVE_LOST, NO_FIVE = ways.upstream_lost(OURS), tunnels.lane_lost(OURS), without("ADP_CS_5", "Max Input HopID")
OTHERS = [*other_sets()]
SEEN = collections.defaultdict(set)  # inputs of each kind, so that no case is asked twice
MET = collections.Counter()  # what the cases have in them


def new(kind, *case):
    """Whether an input is asked for the first time."""
    if case in SEEN[kind]:
        return False
    SEEN[kind].add(case)
    return True


# ---- the Rust ----------------------------------------------------------------------------------------


def oracle(mode, lines, sets=None):
    """The oracle's lines for lines, by some descriptions."""
    if not lines:
        return []
    env, name = dict(os.environ), None
    if sets is not None and sets is not OURS:
        with tempfile.NamedTemporaryFile("w", suffix=".json", delete=False) as f:
            json.dump(sets, f)
        env["ORACLE_REGISTERS"] = name = f.name
    run = subprocess.run([HERE / "target" / "release" / "oracle", *mode.split()], input="".join(l + "\n" for l in lines), capture_output=True, text=True,
                         check=False, env=env)
    if name:
        os.unlink(name)
    out = run.stdout.split("\n")[:-1]
    if run.returncode != 0 or len(out) != len(lines):
        sys.exit(f"compare: oracle {mode}: {run.stderr.strip()[-300:] or 'too few answers'}")
    return out


def batch(kind, cases):
    """The words of the Rust's answer to each case, None where it isn't asked."""
    plain = [c for c in cases if c.isascii()]
    rows = dict(zip(plain, oracle(f"batch {kind}", [c.hex() or "-" for c in plain])))
    return [[int(w, 16) for w in rows[c].split()] if c in rows else None for c in cases]


# ---- numbers, lines and dumps (modules 1 to 3) -------------------------------------------------------


def high(chance, text):
    """With a byte or two above 127."""
    for _ in range(1 + chance.below(2)):
        at = chance.below(len(text) + 1)
        text = text[:at] + chance.one_of([b"\x80", b"\xff", "é".encode(), "\u0660".encode(), "\u2003".encode(), b"\xc3"]) + text[at + chance.below(2):]
    return text


def changed(chance, text):
    """One byte changed, taken out or put in."""
    at, byte = chance.below(len(text) + 1), bytes([chance.below(128)])
    return text[:at] + chance.one_of([byte, b"", byte + text[at:at + 1]]) + text[at + 1:]


def a_number(chance, bits, base=16):
    text = answers.number_near(chance, bits, base)
    if chance.below(6) == 0:
        text = chance.one_of(answers.PREFIXES) + text
    if chance.below(12) == 0:
        text = "".join(chance.one_of("0123456789abcdefABCDEFxX+-_g \0") for _ in range(chance.below(20)))
    text = text.encode()
    text = changed(chance, text) if chance.below(4) == 0 else text
    return high(chance, text) if chance.below(20) == 0 else text


def hex_cases(chance, count):
    made = []
    while len(made) < count:
        bits = chance.one_of([16, 32, 64])
        text = a_number(chance, chance.one_of([bits, bits, 16, 32, 64]))
        if chance.below(30) == 0:
            bits = chance.one_of([0, 1, 8, 15, 17, 31, 33, 63, 65, 128, 2**31, 2**32 - 1])
        if new("hex", text, bits):
            made.append((text, bits))
    said = {}
    for bits in (16, 32, 64):
        held = [t for t, b in made if b == bits]
        said.update({(t, bits): w for t, w in zip(held, batch(f"hex{bits}", held)) if w is not None})
    for text, bits in made:
        w = said.get((text, bits))
        rust = None if w is None else some(w[0] | w[1] << 32 if w else None)
        yield Case("parse_hex", rule.parse_hex(text, bits), rust, numbers=(bits,), text=text)


def a_line(chance):
    tokens = answers.good_tokens(chance, chance.one_of([3, 4, 4, 4, 5, 5, 5, 6, 9]))
    blank = lambda: "".join(chance.one_of(answers.SPLITS if chance.below(60) else answers.NEAR_SPLITS) for _ in range(chance.one_of([1, 1, 1, 2, 3])))
    text = "".join(t + blank() for t in tokens[:-1]) + tokens[-1] if chance.below(2) else " ".join(tokens)
    text = chance.one_of(["", "", "", "", "", "", "", *answers.SPLITS, "#"]) + text + chance.one_of(["", "", "", *answers.SPLITS])
    if chance.below(40) == 0:
        text = chance.one_of(answers.COMMENTS + answers.STARRED)
    text = text.encode()
    text = changed(chance, text) if chance.below(3) == 0 else text
    return high(chance, text) if chance.below(14) == 0 else text


def line_cases(chance, count):
    made = []
    while len(made) < count:
        text = a_line(chance)
        if new("line", text):
            made.append(text)
    for text, w in zip(made, batch("line", made)):
        yield Case("parse_line", tried(lambda: rule.parse_line(text)), None if w is None else value(*w) if w else none(), text=text)


def many_lines(chance):
    """Lines for as many records as are sorted by bytes, one fewer or more, with offsets in no order; most in the kernel's columns."""
    most = chance.one_of([3, 300, 65536])
    row = chance.one_of(["0x{:04x} {:4} 0x00 0x00 0x{:08x}", "{:x} {} 0 {:x}"])
    return "".join(row.format(chance.below(most), i, chance.below(2**32)) + "\n" for i in range(chance.one_of([255, 256, 257, 300, 700])))


def a_dump(chance):
    if chance.below(20) == 0:
        return many_lines(chance).encode()
    what = chance.below(5)
    if what == 0:
        text = "\n".join(answers.real(chance)) + "\n"
    elif what < 3:
        text = answers.damaged(chance, answers.real(chance))
    elif what == 3:
        rows = [" ".join(answers.good_tokens(chance, chance.one_of([3, 4, 5, 6]))) for _ in range(1 + chance.below(8))]
        rows.insert(chance.below(len(rows)), chance.one_of(answers.COMMENTS))
        text = chance.one_of(["\n", "\n", "\r\n"]).join(rows) + chance.one_of(["", "\n"])
    else:
        text = "".join(f"{chance.below(9):x} {i} 0 {chance.below(2**32):x}\n" for i in range(chance.below(60)))
    text = text.encode()
    return high(chance, text) if chance.below(12) == 0 else text


def rooms(chance, needed):
    """Room for an answer of so many words, short and enough."""
    short = [chance.one_of([0, needed - 1, needed - 1, needed // 2])] if needed else []
    return short + [needed + chance.one_of([0, 0, 0, 1, 2, 9, chance.below(100)])]


def roomy(chance, name, expected, rust, **more):
    """Cases for a call that writes: with room and without, where it would write."""
    by_result = expected.answer[:2] == [0, 1]
    for room in rooms(chance, len(expected.words)) if by_result else [chance.one_of([0, 1, 2, 7, 40])]:
        yield Case(name, short(expected, room), rust if room >= len(expected.words) else None, room=room, **more)


def dump_cases(chance, count):
    made = []
    while len(made) < count:
        text = a_dump(chance)
        if new("dump", text):
            made.append(text)
    for text, w in zip(made, batch("dump", made)):
        expected = tried(lambda: rule.read_dump(text))
        needed = len(expected.words)
        pairs = [(rooms(chance, needed)[-1], rooms(chance, needed)[-1])]
        if needed:  # the output short, the scratch, or both
            pairs.append(chance.one_of([(rooms(chance, needed)[0], pairs[0][1]), (pairs[0][0], rooms(chance, needed)[0]),
                                        (rooms(chance, needed)[0], rooms(chance, needed)[0])]))
        elif w is None:
            pairs.append((chance.below(9), 400))
        for room, scratch in pairs:
            rust = Expected([0, 1, len(w) // 4], w, True) if w is not None and min(room, scratch) >= needed else None
            yield Case("read_dump", short(expected, min(room, scratch)), rust, text=text, room=room, scratch=scratch)


# ---- descriptions (module 4) -------------------------------------------------------------------------


def damaged_words(chance, t):
    """A bit flipped, a word taken out, put in or set, or the end cut off; once or twice."""
    t = list(t)
    for _ in range(1 + chance.below(2)):
        at, what = chance.below(len(t) + 1), chance.below(6)
        if what < 2 and t:
            t[at % len(t)] ^= 1 << chance.below(32)
        elif what == 2:
            t = t[:at]
        elif what == 3:
            t[at:at] = [chance.one_of([0, 1 << 28, 2 << 28, 3 << 28 | 1 << 24, 4 << 28 | 1, 5 << 28, 6 << 28, chance.word() % 2**32])]
        elif what == 4 and t:
            del t[at % len(t)]
        elif t:
            t[at % len(t)] = chance.word() % 2**32
    return t


def too_long(chance, t):
    """A list again and again, up to about the most words that a list may have."""
    n = chance.one_of([16383, 16384, 16384, 16385, 16390, 20000])
    return (t * (n // len(t) + 1))[:n] if t else []


def described(t):
    return tried(lambda: (reading.descriptions(t), value())[1])


def variant(chance):
    """Our descriptions, or others, with some changes."""
    sets = copy.deepcopy(chance.one_of([OURS, OURS, gen_t(), wide(), LOST, hidden(), vendored(), shortened(), chance.one_of(OTHERS)[0]]))
    for _ in range(1 + chance.below(4)):
        held = [(s, d) for s in SPACES for d in sets[s]]
        what = chance.below(8)
        if not held or what == 0:
            sets[chance.one_of(SPACES)].append(names.a_register(chance))
            continue
        space, d = chance.one_of(held)
        fields = d.get("bitfields", [])
        if what == 1 and fields:
            fields.remove(chance.one_of(fields))
        elif what == 2 and fields:
            f = chance.one_of(fields)
            f["start_bit"] = chance.below(32)
            f["end_bit"] = chance.one_of([f["start_bit"], f["start_bit"] + chance.below(32 - f["start_bit"])])
        elif what == 3:
            d["adapter_type"] = [t for t in TYPES if chance.below(2)]
        elif what == 4:
            sets[space].insert(chance.below(len(sets[space]) + 1), {**copy.deepcopy(d), **chance.one_of([{}, {"cap_id": chance.below(5)}, {"offset": chance.below(4)}])})
        elif what == 5:
            d.update(chance.one_of([{"offset": chance.below(6)}, {"cap_id": chance.one_of([0, 1, 4])}, {"vs_cap_id": chance.below(2)}]))
        elif what == 6:
            d["name"] = names.mixed(chance, d["name"])
            for f in fields:
                f["name"] = names.mixed(chance, f["name"])
        else:
            sets[space] = chance.mixed(sets[space])
    return sets


def description_lists(chance, count):
    """Lists of words: well formed, broken, at the limit of length."""
    while count > 0:
        words = names.a_set(chance)[1] if chance.below(3) else set_words(variant(chance))
        what = chance.below(10)
        if what == 0:
            words = [] if chance.below(20) == 0 else too_long(chance, words)
        elif what > 2:
            words = damaged_words(chance, words)
        if new("descriptions", tuple(words)):
            count -= 1
            yield words


def description_cases(chance, count):
    for words in description_lists(chance, count):
        yield Lent(words)
        yield Case("check_descriptions", described(words))


def name_items(chance, questions):
    """Questions about one set of descriptions: which group names a register, and a field of it."""
    sets, words = names.a_set(chance) if chance.below(3) else [(s, set_words(s)) for s in [variant(chance)]][0]
    found = reading.descriptions(words)
    made = [names.a_question(chance, sets) for _ in range(questions)]
    rows = oracle("fields", [" ".join(map(str, q[:6])) + " " + (q[6].encode().hex() or "-") for q in made], sets)
    MET["sets of descriptions"] += 1
    yield Lent(words)
    for (space, kind, relative, cap, vs, v, wanted), row in zip(made, rows):
        name, _, field, _ = row.split(" ")
        d = reading.named(found, space, kind, {"relative": relative, "cap": cap, "vs": vs})
        expected = rule.describe(found, space, kind, relative, cap, vs)
        # The Rust says the name; where its group stands is by document 01.
        if name != "-" and d is not None and bytes.fromhex(name).lower() == d["name"].encode() or name == "-" and d is None:
            rust = expected
        else:
            rust = none() if name == "-" else Expected([0, 1, 2**32])
        yield Case("describe", expected, rust, numbers=(space, kind, relative, cap, vs))
        if chance.below(6) == 0:  # a number that no register has
            q = [space, kind, relative, cap, vs]
            at = chance.below(5)
            q[at] = chance.one_of([3, 4, 2**32 - 1, 2**16 + q[0]] if at == 0 else [12, 13, 31, 32 + kind, 2**32 - 1] if at == 1 else [2**16 + q[at], 2**32 - 1])
            yield Case("describe", rule.describe(found, *q), numbers=tuple(q))
        wanted = wanted.encode()
        if d is not None:
            yield Case("field", rule.field(found, d["place"], v, wanted), Expected([6]) if field == "panic" else value(int(field)), place=d["place"],
                       numbers=(v,), text=wanted)
        if chance.below(3) == 0:  # somewhere, or by a name that isn't ASCII
            place = chance.one_of([chance.below(len(words) + 2), chance.one_of(found)["place"] if found else 0, 2**32, 2**64 - 1])
            wanted = chance.one_of([wanted, high(chance, wanted), "\u212a".encode(), wanted + b" ", wanted + b"\0"])
            yield Case("field", rule.field(found, place, v, wanted), place=place, numbers=(v,), text=wanted)
    broken = damaged_words(chance, words)
    expected = described(broken)
    if expected.answer[0] == 3:
        yield Lent(broken)
        q = made[0]
        yield Case("describe", expected, numbers=q[:5])
        yield Case("field", expected, place=chance.below(len(broken) + 1), numbers=(q[5],), text=q[6].encode())


# ---- surveys (modules 5 to 7) ------------------------------------------------------------------------


def word_answer(w):
    """One of the oracle's answers that are a word."""
    if w >> 28 == 15:
        return refused(reading.Refused(w >> 24 & 15, w >> 8 & 65535, w & 255))
    return some(w & 0xFFFFFFF if w >> 28 else None)


def read_answers(questions, row):
    """The oracle's answers to questions about a survey that is accepted, by question; those of an adapter by call."""
    said, i = {}, 0
    for q in map(tuple, questions):
        i += len(q)
        kind, w = q[0] >> 28, row[i]
        if kind == 0:
            said[q] = value(w >> 14 & 16383, w & 16383)
            i += 1
        elif kind == 1:
            said[q] = word_answer(row[i + 5])
            i += 6
        elif kind == 2:
            least = row[i + 1] & 0xFFFFFFF if row[i + 1] else 65536
            said[q] = {"adapter": value(w & 15, w >> 4 & 15, w >> 8 & 1, w >> 9 & 1, least, w >> 10 & 1), "link_speed": word_answer(row[i + 2]),
                       "max_hop": word_answer(row[i + 3])}
            i += 7
            for _ in range(2):
                i += 3 if row[i] >> 28 == 2 else 1
        elif w >> 28 in (0, 15):
            said[q] = word_answer(w)
            i += 1
        else:
            n = 1 + 2 * (w & 65535) if kind == 6 else 1 + (w & 0xFFFFFFF)
            words = row[i + (kind == 7):i + n]
            said[q] = Expected([0, 1, len(words)], words)
            i += n
    assert i == len(row)
    return said


class Asked:
    """A survey by some descriptions, and what is asked of it."""

    def __init__(self, chance, words, t, starts=(), most=12):
        self.chance, self.t, self.starts, self.most = chance, t, starts, most
        self.refused = self.walks = None
        try:
            self.walks = reading.Walks(*reading.load(words, t))
        except reading.Refused as r:
            self.refused = r
        self.by_rust = self.refused is None or self.refused.number > 4
        self.plan = [] if self.refused else [*self.planned()]
        self.questions = [[0]] + [*map(list, dict.fromkeys(q for q, *_ in self.plan if q))]

    # Each call: the oracle's question or None, the call, place, numbers, what document 01 says.

    def planned(self):
        for name, place, numbers in self.calls():
            at, number = place << 8, numbers[0] if numbers else 0
            q = {"load": (0,), "parent": (1 << 28 | at,), "walk": (6 << 28 | at | number, 0xFFFF << 16 | numbers[-1] if numbers else 0),
                 "discover": (7 << 28 | at | number, 0)}.get(name, (2 << 28 | at | number,))
            yield q, name, place, numbers, tried(lambda: rule.of_loaded(name, self.walks, place, numbers))
        for name, place, numbers in self.missing():
            yield None, name, place, numbers, Expected([14])

    def calls(self):
        """Calls on what is there, each a name, a place and numbers."""
        chance, devices = self.chance, self.walks.devices
        yield "load", 0, ()
        yield from (("parent", place, ()) for place in range(len(devices)))
        stands = [(p, a) for p, d in enumerate(devices) for a in d["adapters"]]
        for place, a in chance.mixed(stands)[:self.most]:
            yield from ((name, place, (a["number"],)) for name in ("adapter", "link_speed", "max_hop"))
        for place, number, hop in self.walk_starts(stands):
            yield "walk", place, (number, hop)
        sources = [s for s in stands if reading.enabled(s[1])]
        others = [s for s in stands if not reading.enabled(s[1])]
        for place, a in chance.mixed(sources)[:self.most] + chance.mixed(others)[:2]:
            yield "discover", place, (a["number"],)

    def walk_starts(self, stands):
        chance = self.chance
        with_entry = [(p, a["number"], h) for p, a in stands for h in a["first"]]
        some_starts = [*self.starts[:self.most], *chance.mixed(with_entry)[:self.most]]
        for _ in range(2 if stands else 0):
            p, a = chance.one_of(stands)
            some_starts.append((p, a["number"], chance.one_of([0, 1, 7, 8, 8, 9, 32767, 32768, 65535, chance.below(65536)])))
        if with_entry:  # a HopID that differs in a bit from one that has an entry
            p, n, h = chance.one_of(with_entry)
            some_starts.append((p, n, h ^ 1 << chance.one_of([15, 15, chance.below(16)])))
        return dict.fromkeys(some_starts)

    def missing(self):
        """A device or an adapter that isn't there: 14."""
        chance, devices = self.chance, self.walks.devices
        n = len(devices)
        for name in chance.mixed(["adapter", "link_speed", "max_hop", "walk", "discover"])[:2]:
            place = chance.one_of([n, n, n + 1, *range(n), chance.below(n + 1) + 2**chance.one_of([12, 16, 20, 31, 32, 63])])
            held = [a["number"] for a in devices[place]["adapters"]] if place < n else []
            number = chance.one_of([k for k in (0, 1, len(held) + 1, 255) if k not in held])
            yield name, place, (number, 8) if name == "walk" else (number,)
        yield "parent", chance.one_of([n, n + 1, chance.below(n + 1) + 2**chance.one_of([12, 16, 32, 63]), 2**64 - 1]), ()

    def items(self, row):
        """Cases, with the oracle's answers where there are any."""
        chance = self.chance
        yield Lent(survey=self.t)
        yield Case("check_survey", tried(lambda: (reading.survey(self.t), value())[1]))
        if self.refused:
            expected, rust = refused(self.refused), word_answer(row[1]) if row else None
            yield Case("load", expected, rust)
            for name in chance.mixed(["adapter", "link_speed", "max_hop", "parent", "walk", "walk", "discover", "discover"])[:4]:
                numbers = () if name == "parent" else (chance.one_of([0, 1, 2, 255]), chance.one_of([8, 9, 65535]))[:1 + (name == "walk")]
                yield Case(name, expected, rust, place=chance.one_of([0, 1, 2, 4095, 2**33]), numbers=numbers, room=chance.one_of([0, 3, 40]))
            return
        said = read_answers(self.questions, row)
        for q, name, place, numbers, expected in self.plan:
            rust = said.get(q)
            rust = rust[name] if isinstance(rust, dict) else rust
            if name in ("walk", "discover"):
                yield from roomy(chance, name, expected, rust, place=place, numbers=numbers)
            else:
                yield Case(name, expected, rust, place=place, numbers=numbers)


def described_by(chance, sets, all_surveys, most=12):
    """Cases of surveys, each with starts of walks, by one set of descriptions."""
    words = set_words(sets)
    made = [Asked(chance, words, t, starts, most) for t, starts in all_surveys if new("survey", tuple(words), tuple(t))]
    by_rust = [a for a in made if a.by_rust]
    rows = oracle("loads", [" ".join(f"{w:x}" for w in [len(a.t), *a.t, *(w for q in a.questions for w in q)]) for a in by_rust], sets)
    said = {id(a): [int(w, 16) for w in row.split()] for a, row in zip(by_rust, rows)}
    MET["sets of descriptions"] += 1
    yield Lent(words)
    for a in made:
        count_survey(a)
        yield from a.items(said.get(id(a)))
    # the same under a list that is broken: 3 comes first
    broken = damaged_words(chance, words)
    expected = described(broken)
    if made and expected.answer[0] == 3:
        yield Lent(broken, chance.one_of(made).t)
        for name, numbers in (("load", ()), ("adapter", (1,)), ("parent", ()), ("walk", (1, 8)), ("discover", (1,))):
            yield Case(name, expected, numbers=numbers, room=chance.one_of([0, 5]))


# ---- what surveys have in them -----------------------------------------------------------------------


def deep(devices):
    """How many routers stand one below another, at most."""
    routers = {(d["domain"], d["route"]) for d in devices if d["kind"] == 1}
    best = 0
    for domain, route in routers:
        n = 1
        while route and (domain, route := route % 256 ** (reading.depth(route) - 1)) in routers:
            n += 1
        best = max(best, n)
    return best


def tunnel_heads(words):
    """The words of tunnels among result words; a hop's second word may look like one."""
    i = 0
    while i < len(words):
        if words[i] >> 28 == 8:
            yield words[i]
        i += 2 if words[i] >> 28 == 10 else 1


def count_survey(a):
    MET["surveys"] += 1
    if a.refused:
        MET["surveys refused by 4" if a.refused.number == 4 else "surveys refused in loading"] += 1
        return
    devices = a.walks.devices
    routers = [(d["domain"], d["route"]) for d in devices if d["kind"] == 1]
    depth = deep(devices)
    MET[f"surveys {depth} routers deep" if 0 < depth < 5 else "surveys deeper" if depth else "surveys without routers"] += 1
    MET["surveys with twins"] += len(routers) > len(set(routers))
    MET["surveys with xdomains"] += any(d["kind"] == 2 for d in devices)
    MET["surveys with zero bytes in routes"] += any(0 in d["route"].to_bytes(8, "little")[:reading.depth(d["route"])] for d in devices)
    for _, name, _, _, expected in a.plan:
        if name == "discover":
            for w in tunnel_heads(expected.words):
                MET[f"{texts.KINDS[w & 15]} tunnels, {'closed' if w >> 16 & 1 else 'open' if w >> 8 & 255 > 1 else 'one way'}"] += 1


# ---- surveys of each kind ----------------------------------------------------------------------------


def a_line_of_routers(chance):
    """One to four routers, one below another, with tunnels that are whole or broken."""
    count = chance.one_of([1, 2, 2, 3, 3, 4, 4])
    kinds = [written.HOST] if count == 1 else written.kinds_for(chance)
    first = chance.one_of(["10", "11", "12", "ring"]) if chance.below(6) == 0 else None
    top = 0x0807_0605_0403_0201 % 256 ** (9 - count) if first == "12" else chance.one_of([0, 0, 0, 0x0102_0304])
    up = chance.one_of([1, 2]) if first == "11" else 63
    line = written.whole_line(chance, count, kinds, chance.one_of([None, None, ["closed"], ["open"]]), top, up, first)
    if any(d["route"] >> 64 for d in line.devices):  # another host below depth 8
        return a_line_of_routers(chance)
    if chance.below(4) == 0:
        line.devices = chance.mixed(line.devices)
    return line.words()


def twin(chance, t):
    """With a device once more, somewhere."""
    found = lists.groups(t)
    start, end = chance.one_of(found)
    at = chance.one_of([s for s, _ in found] + [len(t)])
    return t[:at] + t[start:end] + t[at:]


def damaged_survey(chance, t):
    return too_long(chance, t) if chance.below(12) == 0 else lists.damaged(chance, t) if chance.below(2) else damaged_words(chance, t)


def flipped(chance, t):
    """With bits of values flipped: registers that are damaged, in words that keep the rules."""
    t = list(t)
    heads, i = [], 0
    while i < len(t):
        heads += [i] if t[i] >> 28 == 5 else []
        i += 1 if t[i] >> 28 == 4 else 4
    for _ in range(1 + chance.below(3)):
        if heads:
            t[chance.one_of(heads) + 3] ^= 1 << chance.below(32)
    return t


def with_tunnels(chance, sets, count):
    """Fabrics with tunnels; damaged copies, twins, flipped values and broken words among them."""
    for _ in range(count):
        made = tunnels.some(chance, sets)
        t = made.words()
        yield t, ()
        what = chance.below(6)
        if what == 0:
            yield tunnels.damaged(made), ()
        elif what == 1:
            yield twin(chance, t), ()
        elif what == 2:
            yield flipped(chance, t), ()
        elif what == 3:
            yield damaged_survey(chance, t), ()


def with_tours(chance, sets, count):
    for _ in range(count):
        made, starts = ways.mixture(chance, sets)
        if made.devices:
            yield made.words(), starts


def lines_of_routers(chance, count):
    for _ in range(count):
        t = a_line_of_routers(chance)
        yield t, ()
        if chance.below(3) == 0:
            yield chance.one_of([twin, flipped, damaged_survey])(chance, t), ()


def rare(chance, round_):
    """Rings and chains, long walks and lists, the most rings and HopIDs; some in each round."""
    yield OURS, [ways_of(ways.rings(chance, OURS, [2 * (1 + chance.below(20)) for _ in range(3)]))]
    what = round_ % 12
    if what in (1, 5, 9):
        yield OURS, [ways_of(ways.chain(chance, OURS))]
    elif what == 2:
        yield OURS, [ways_of(ways.longest(chance, OURS, [1, 2, 10, 100, 1500]))]
    elif what == 3:  # as many paths as a search for one ring notes for the others, one fewer and one more
        yield OURS, [(tunnels.many_paths(chance, OURS, n), ()) for n in (63, 64, 65)]
    elif what == 4:
        yield OURS, [(tunnels.many_rings(chance, OURS, 30, 60), ()), (tunnels.long_list(chance, OURS, 400), ())]
    elif what == 6:
        yield OURS, [(tunnels.most_rings(chance, OURS, 2047), ()), (tunnels.most_hops(chance, OURS, 2047), ())]
    elif what == 7:  # the same where there is room for many
        yield wide(), [(tunnels.crowded(chance, wide(), n), ()) for n in (2047, 2048, 2049)]
    elif what == 8:
        yield gen_t(ports=1), [(tunnels.gen_t_fault(chance, gen_t(ports=1)), ()) for _ in range(3)]
    elif what == 10:
        yield wide(), [(tunnels.most_rings(chance, wide(), 65535), ()), (tunnels.most_hops(chance, wide(), 65536), ())]


def ways_of(made):
    return made[0].words(), made[1]


def survey_groups(chance, round_):
    """Sets of descriptions with surveys, each with starts."""
    yield OURS, [*lines_of_routers(chance, 16), *with_tunnels(chance, OURS, 12)]
    yield LOST, [*with_tours(chance, LOST, 6), *with_tunnels(chance, LOST, 5)]
    yield wide(), [*with_tours(chance, wide(), 3), *with_tunnels(chance, wide(), 3)]
    other = chance.one_of([FIVE_LOST, NO_FIVE])
    yield other, [*with_tunnels(chance, other, 3)]
    yield OURS, [(t, ()) for t in surveys(chance, OURS, "", 7)]
    for i in range(2):
        sets, favoured = OTHERS[(2 * round_ + i) % len(OTHERS)]
        yield sets, [(t, ()) for t in surveys(chance, sets, favoured, 6)]
    for _ in range(3):
        sets = variant(chance)
        yield sets, [(t, ()) for t in surveys(chance, sets, chance.one_of(["", *FAVOURED]), 5)]
    yield from rare(chance, round_)


def survey_items(chance, round_):
    for sets, all_surveys in survey_groups(chance, round_):
        yield from described_by(chance, sets, all_surveys, 12)


def broken_surveys(chance, count):
    """Survey words with faults; 4 with its place."""
    while count > 0:
        t = chance.one_of([lists.survey, lists.survey, lambda c: surveys(c, OURS, "", 1)[0]])(chance)
        t = damaged_survey(chance, t) if chance.below(6) else t
        if new("survey words", tuple(t)):
            count -= 1
            yield Lent(survey=t)
            yield Case("check_survey", tried(lambda: (reading.survey(t), value())[1]))


# ---- texts -------------------------------------------------------------------------------------------


def a_text(chance):
    words = a_line_of_routers(chance) if chance.below(3) else tunnels.some(chance, OURS).words()
    while not written.writable(words):
        words = tunnels.some(chance, OURS).words()
    what = chance.below(10)
    if what < 2:
        text = written.Style(chance, *chance.mixed(written.WAYS)[:chance.below(6)]).written(words)
    else:
        text = written.plain(chance, words)
    if what > 4:
        for _ in range(1 + chance.below(2)):
            text = written.line_changed(chance, text)
    if what == 9:
        text = high(chance, text)
    if chance.below(60) == 0:  # about the most bytes, or more words than a survey may have
        n = 65536 + chance.one_of([-1, 0, 1, 4464])
        text = text + b"0 0 0 0\n" * (n // 8) if chance.below(3) == 0 else text + b"\n" * (n - len(text))
        text = text[:n]
    return text


def text_cases(chance, count):
    made = []
    while len(made) < count:
        text = a_text(chance)
        if new("text", text):
            made.append(text)
    for text, w in zip(made, batch("survey", made)):
        expected = tried(lambda: rule.written(texts.survey_words(text)))
        # The driver's refusals have no places, and it knows no most words.
        rust = Expected([0, 1, len(w) - 1], w[1:]) if w and w[0] >> 28 == 1 and len(w) <= reading.LONGEST + 1 and len(text) <= texts.MOST_BYTES else None
        yield from roomy(chance, "text", expected, rust, text=text)


def result_lines(words):
    """The lines of result words, and how many tunnels they have."""
    lines, count, i = [], 0, 0
    while i < len(words):
        w = words[i]
        if w >> 28 == 8:
            source = words[i + 2]
            closed = "closed" if w >> 16 & 1 else "open"
            lines.append(f"{texts.KINDS[w & 15]} from {source >> 16 & 4095}:{source >> 8 & 255} paths {w >> 8 & 255} {closed}")
            count += 1
        elif w >> 28 == 9:
            lines.append(f"{texts.NAMES[w >> 16 & 15]} hops {w & 65535}")
        else:
            hops = words[i + 1]
            lines.append(f"{w >> 16 & 4095} {w >> 8 & 255} {hops >> 16} {w & 255} {hops & 65535}")
            i += 1
        i += 1
    return lines, count


def whole_path(cases):
    """What our library comes to for texts: survey words, loading, every adapter's tunnels; as the program prints them."""
    items, plans = [Lent(OUR_WORDS)], []
    for case in cases:
        answer, _, output, _ = case.got
        t = [*output[:answer[2]]] if answer[0] == 0 else None
        stands = []
        if t is not None:
            stands = [(p, a["number"]) for p, d in enumerate(reading.survey(t)) for a in d["adapters"]]
            items += [Lent(survey=t), Case("load", none())]
            items += [Case("discover", none(), place=p, numbers=(n,), room=texts.ROOM) for p, n in stands]
        plans.append((case, answer[0], len(stands)))
    said = iter(asked(items))
    for case, number, count in plans:
        lines, total = [], 0
        if number == 0:
            for got in [next(said) for _ in range(1 + count)]:
                if number == 0 and (got is None or got[0][0]):
                    number = 99 if got is None else got[0][0]
                elif number == 0 and got[2]:
                    more, n = result_lines(got[2])
                    lines, total = lines + more, total + n
        lines = [f"refused {number}"] if number else [f"tunnels {total}", *lines]
        yield case.text, "".join(l + "\n" for l in lines).encode()


def printed_by_rust(cases):
    return [bytes.fromhex(row) for row in oracle("programs", [c.text.hex() or "-" for c in cases])]


# ---- our descriptions --------------------------------------------------------------------------------


def our_cases(chance, count):
    words = [int(w, 16) for w in subprocess.run([HERE / "target" / "release" / "oracle", "descriptions"], input="", capture_output=True, text=True,
                                                check=True).stdout.split()]
    for room in {0, 1, 90, 91, 92, 200, *(chance.below(300) for _ in range(count))}:
        yield Case("our_descriptions", short(rule.written(OUR_WORDS), room), rule.written(words) if room >= len(words) else None, room=room)


def kinds(seed, round_):
    """The cases of a round, by kind: a name, and items."""
    def chance(name):
        return Chance(f"compare {seed} {round_} {name}")
    yield "numbers", hex_cases(chance("hex"), 450)
    yield "lines", line_cases(chance("line"), 550)
    yield "dumps", dump_cases(chance("dump"), 120)
    yield "descriptions", description_cases(chance("descriptions"), 200)
    yield "names", (item for c in [chance("names")] for _ in range(10) for item in name_items(c, 24))
    yield "broken surveys", broken_surveys(chance("broken"), 200)
    yield "surveys", survey_items(chance("surveys"), round_)
    yield "texts", text_cases(chance("texts"), 80)
    if round_ == 0:
        yield "ours", our_cases(chance("ours"), 10)
