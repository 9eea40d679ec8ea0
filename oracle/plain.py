"""Surveys written by hand, and cases about them with answers from document 01: what make-load-rules, make-walk-rules and make-discovery-rules
share."""
import collections
import sys

import reading
from described import OURS, gen_t, register_words, set_words
from stored import flipped, row, store

ROWS = []
MET = collections.Counter()
SET = []  # the descriptions that the cases go by


# ---- writing cases -----------------------------------------------------------------------------


def using(words, total=None):
    """The cases from here on go by these descriptions, repeated up to that length."""
    n = len(words) if total is None else total
    SET[:] = (words * (n // max(len(words), 1) + 1))[:n]
    ROWS.append(row(0, n, *words))


def no(number, place=0, adapter=0):
    return 15 << 28 | number << 24 | place << 8 | adapter


def case(t, asked, total=None):
    """A survey, repeated up to that length, and questions with their answers."""
    n = len(t) if total is None else total
    said = [w for q, a in asked for w in [*q, *a]]
    full = (t * (n // max(len(t), 1) + 1))[:n]
    read = reading.answers(SET, full, [q for q, _ in asked])
    if said != read:
        sys.exit(f"{sys.argv[0]}: case {len(ROWS) + 1}: written {row(*said)}\nread {row(*read)}")
    for _, a in asked:
        for w in {w for w in a if w >> 28 == 15}:
            MET[w >> 24 & 15] += 1
    ROWS.append(row(1, len(said), *said, n, *t))


def refused(t, number, place, adapter=0, total=None):
    """Every call is refused alike: at a device and adapter that may be there, or at some that aren't."""
    word = no(number, place, adapter)
    p, n = ((0, 1), (1, 2), (4095, 0))[len(ROWS) % 3]
    case(t, [([0], [word]), ([5 << 28 | p << 8 | n], [word])], total)


def short(words):
    return [15 << 28 | 2 << 24 | words]


def store_rules(name, first, wanted, check):
    """Writes the cases, whose first answers stand at that word of a line; each of these refusals must be among the answers."""
    # A refusal's last bit: the first from the middle on whose first answer is one.
    at = next(i for i in range(len(ROWS) // 2, len(ROWS)) if ROWS[i].split(" ")[1] == "00000001" and ROWS[i].split(" ")[first][:1] == "f")
    ROWS[at] = flipped(ROWS[at], first)
    store(name, ROWS, at + 1, check)
    print(", ".join(f"{n}: {MET[n]}" for n in sorted(MET)))
    missing = [n for n in wanted if not MET[n]]
    if missing:
        sys.exit(f"{sys.argv[0]}: refusals not met: {missing}")


# ---- survey words ------------------------------------------------------------------------------

MISSING = 2  # a path dump that was looked for
LANE, HOST, PCIE, DP, USB3, GEN_T, STRANGE = 1, 2, 0x100101, 0x0E0101, 0x200101, 0x210101, 0x123456
DOMAIN, ROUTER, XDOMAIN, RETIMER, SERVICE, UNKNOWN = range(6)


def reg(offset, relative, value=0, cap_id=0, vs=0, space=0):
    return [5 << 28 | space << 16 | offset, relative << 16 | cap_id, vs, value]


def device(kind=ROUTER, regs=None, at=0, domain=0, usb4=0):
    """A device; regs None: not read."""
    return [3 << 28 | kind << 24 | (regs is not None) << 1 | usb4, domain, at % 2**32, at >> 32] + sum(regs or [], [])


def router(most, up=1, **more):
    return device(ROUTER, [reg(1, 1, most << 14 | up << 8)], **more)


def adapter(number, regs=None, paths=0):
    """An adapter; regs None: not read; paths 0 not read, MISSING, or a list."""
    mark = paths if isinstance(paths, int) else 1
    return [4 << 28 | mark << 9 | (regs is not None) << 8 | number] + sum(regs or [], []) + sum(paths if mark == 1 else [], [])


def front(code):
    return [reg(0, 0), reg(1, 1), reg(2, 2, code)]


def entry(hop, out=1, out_hop=8, relative=0, valid=1, odd=0):
    return reg(2 * hop + odd, relative, valid << 31 | out << 11 | out_hop, space=1)


def box(at, up, *kinds, domain=0):
    """A router whose adapters have those codes, or registers, and entries."""
    t = router(len(kinds), up, at=at, domain=domain)
    for n, (code, *paths) in enumerate(kinds, 1):
        t += adapter(n, front(code) if isinstance(code, int) else code, paths)
    return t


def bare(at=1, relative=9, domain=0):
    """A router without adapters; its one register is the second ROUTER_CS_1 of `upstream_lost`, or ours, or none."""
    return device(ROUTER, [reg(1, relative, 1 << 8)], at=at, domain=domain)


LANE_UP = reg(0x21, 1, 2 << 26 | 4 << 16, 1)  # LANE_ADP_CS_1: CL0, Gen 3
PE = reg(0x39, 0, 1 << 31, 4)  # ADP_PCIE_CS_0
TWO = router(2)


# ---- what comes before anything that a call looks for --------------------------------------------


def refused_first(surveys, every):
    """3, 4 and each refusal of loading, around surveys of two devices: `every` has a list, the answer to all that is asked, and its length."""
    four = register_words(0, {"name": "Four", "offset": 4})
    bad = [5 << 28, 0, 0, 0]
    for words, total, place in ((set_words(OURS) + [0], None, 91), (four, 16385, 16384), (four[:-1], None, 0)):
        using(words, total)
        for t in (*surveys, bad, surveys[-1] + device(ROUTER, []), []):
            every(t, no(3, place))
    using(set_words(OURS))
    faults = {5: device(ROUTER, []), 7: device(XDOMAIN, at=2) + adapter(1), 6: router(1, at=2) + adapter(1, front(LANE), [entry(8, relative=1)]),
              9: router(1, at=2) + adapter(1, front(PCIE), MISSING)}
    for t in surveys:
        every(t + bad, no(4, len(t)))
        every(bad + t, no(4, 0))
        every(t, no(4, 16384), 16385)
        for n, fault in faults.items():
            every(t + fault, no(n, 2, 1 if n in (6, 9) else 0))
            every(fault + t, no(n, 0, 1 if n in (6, 9) else 0))
            every(t + fault + bad[:3], no(4, len(t + fault)))
    using(set_words(gen_t(ports=1)))
    for t in surveys:
        every(t + router(1, at=2) + adapter(1, front(GEN_T) + [reg(65533, 0, 1, 4)]), no(8, 2, 1))
    using(set_words(OURS))
