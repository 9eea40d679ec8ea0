"""Small fabrics as surveys, from a seed: routers and other devices, adapters, path dumps, and damage to them."""
import copy

import reading
from described import FAVOURED

ROUTES = [0, 0, 0, 1, 3, 0xFF, 0x100, 0x301, 0x103, 0x010001, 0x30301, 2**56, 0x0101010101010101, 0x01000000000003, 0xFF00000000000000,
          0x0300000000000001]
CODES = 2 * list(reading.CODES) + [1, 1, 1, 1, 1, 1, 2, 2, 3, 0x0E0103, 0x210103, 0xFFFFFF]


KEPT = {"Max_Adapter": 256, "Upstream_Adapter": 256, "Output_Adapter": 256, "Output_HopID": 65536, "Gen_T_Port_Count": 65536}


class Fabric:
    """Makes surveys for one set of descriptions, whose fields say where values go."""

    def __init__(self, chance, sets, favoured):
        self.chance, self.sets = chance, sets
        self.codes = CODES + 40 // len(FAVOURED.get(favoured, CODES)) * FAVOURED.get(favoured, [])

    def value(self, register, **wanted):
        """A word with those values in the fields of a register, and anything around them."""
        w = self.chance.word() % 2**32
        for name, v in wanted.items():
            for d in (d for s in self.sets.values() for d in s if d["name"].lower() == register.lower()):
                for f in d.get("bitfields", []):
                    if name.replace("_", " ").lower() in (f["name"].lower(), f.get("short_name", "").lower()):
                        low, size = f["start_bit"], f["end_bit"] - f["start_bit"] + 1
                        if 2**size > KEPT.get(name, 2**32):  # with bits that the Rust drops
                            v += KEPT[name] * self.chance.below(2**size // KEPT[name])
                        w = w & ~((2**size - 1) << low) | v % 2**size << low
                        break
        return w

    def reg(self, offset, relative, cap=0, vs=0, value=None):
        return [offset, relative, cap, vs, self.chance.word() % 2**32 if value is None else value]

    def router_regs(self, adapters):
        chance = self.chance
        most = len(adapters) if chance.below(30) else chance.below(8)
        up = chance.one_of([1, 1, 1, 2, 3, chance.below(64)])
        regs = [self.reg(1, 1, value=self.value("ROUTER_CS_1", Max_Adapter=most, Upstream_Adapter=up))]
        if chance.below(2):
            regs.append(self.reg(0, 0))
        if chance.below(6) == 0:  # another after it, or one of a capability before it
            regs.append(self.reg(chance.one_of([2, 9]), 1) if chance.below(3) else self.reg(0, 1, cap=3))
        return regs

    def front(self, code):
        """The first registers: the code in the third by offset, most often at offset 2."""
        chance = self.chance
        third = code | chance.below(256) << 24
        five = self.value("ADP_CS_5", Max_Input_HopID=chance.one_of([0, 7, 8, 9, 11, 63, 2047, 65535, 65536]))
        shape = chance.below(14)
        if shape == 0:  # two at offset 0: the third is at offset 1
            return [self.reg(0, 0), self.reg(0, 0), self.reg(1, 1, value=third), self.reg(2, 2, value=chance.one_of(self.codes)),
                    self.reg(5, 5, value=five)]
        if shape == 1:  # none at offset 2: the third is ADP_CS_5
            return [self.reg(0, 0), self.reg(1, 1, value=chance.one_of(self.codes)), self.reg(5, 5, value=third)]
        if shape == 2:  # none at offset 0
            return [self.reg(1, 1), self.reg(2, 2, value=chance.one_of(self.codes)), self.reg(3, 3, value=third), self.reg(5, 5, value=five)]
        if shape == 3:  # a capability first, two ADP_CS_5
            return [self.reg(0, 0, cap=chance.one_of([1, 4, 6])), self.reg(1, 1), self.reg(2, 2, value=third), self.reg(5, 5, value=five),
                    self.reg(6, 5)]
        if shape == 4:
            return [self.reg(0, 0), self.reg(1, 1), self.reg(2, 2, value=third)]
        return [self.reg(0, 0), self.reg(1, 1), self.reg(2, 2, value=third), self.reg(5, 5, value=five)]

    def lane_regs(self):
        chance = self.chance
        at = chance.one_of([0x10, 0x20])
        regs = []
        if chance.below(8):
            state = chance.one_of([0, 1, 2, 2, 2, 3, 4, 5, 6, 7, 8, 15])
            vs = chance.one_of([0, 0, 0, 0, 1, 2])
            regs = [self.reg(at + 1, 1, 1, vs, self.value("LANE_ADP_CS_1", Adapter_State=state, Current_Link_Speed=chance.one_of([8, 4, 2, 0, 6])))]
        if chance.below(2):
            regs.append(self.reg(at, 0, 1))
        if chance.below(6) == 0:
            regs.append(self.reg(at + 2, chance.one_of([1, 2]), 1))
        caps = chance.one_of([0, 0, 1, 2, 2, 3])
        return regs + [self.reg(0x30 + i * chance.one_of([1, 2]), i, 6) for i in range(caps)]

    def gen_t_regs(self):
        chance = self.chance
        at = chance.one_of([0x40, 0x40, 0x40, 0x40, 65528, 65532, 65533])
        count = chance.one_of([0, 1, 1, 2, 3, 4])
        regs = [self.reg(at, 0, 4, value=self.value("ADP_USB3_GT_CS_0", Gen_T_Port_Count=count))]
        for p in range(count):
            if at + 3 + 2 * p < 65536 and chance.below(4):
                enabled = chance.below(2) << 31 | chance.below(2) << 30 | chance.below(2**30)
                relative = 3 + 2 * p if chance.below(12) else 1
                regs.append(self.reg(at + 3 + 2 * p, relative, 4, value=enabled))
                if chance.below(5) == 0:  # another at the same offset
                    regs.append(self.reg(at + 3 + 2 * p, relative, 4))
        return regs if chance.below(10) else regs[1:]

    def cap_regs(self):
        chance = self.chance
        if chance.below(6) == 0:
            return []
        flags = chance.one_of([3, 3, 2, 1, 0]) << 30 | chance.below(2**30)
        regs = [self.reg(0x39, 0, 4, value=flags)]
        return regs + [self.reg(0x3A + i, chance.one_of([1, 1, 0]), 4) for i in range(chance.one_of([0, 0, 1, 2]))]

    def paths(self, least):
        chance = self.chance
        regs = []
        for _ in range(chance.one_of([0, 1, 1, 2, 2, 4])):
            h = chance.one_of([least, least, least + 1, least + chance.below(6), chance.below(10), 32767])
            v = self.value("PATH_CS_0", Output_HopID=chance.one_of([8, 9, chance.below(65536)]),
                           Output_Adapter=chance.one_of([1, 2, chance.below(256)]), Valid=min(chance.below(4), 1))
            odd = chance.below(8) == 0
            ids = chance.one_of([(0, 0)] * 70 + [(1, 1), (4, 0)])
            regs.append(self.reg(2 * h + odd, odd if chance.below(90) else 1 - odd, *ids, value=v))
            if chance.below(5) == 0:  # one more for the same HopID
                v = self.value("PATH_CS_0", Output_HopID=chance.below(65536), Output_Adapter=chance.below(256), Valid=1)
                regs.append(self.reg(2 * h, 0, value=v))
        return regs

    def adapter(self, number, lane=False):
        chance = self.chance
        code = 1 if lane and chance.below(4) else chance.one_of(self.codes)
        kind = reading.CODES.get(code, 0)
        a = {"number": number, "read": int(chance.below(8) > 0), "paths": chance.one_of([0, 1, 1, 1]), "regs": [], "path_regs": []}
        if a["read"]:
            more = self.lane_regs if kind == reading.LANE else self.gen_t_regs if kind >= reading.GEN_T_DOWN else self.cap_regs
            a["regs"] = self.front(code) + more()
        if kind == reading.LANE and number not in (1, 3) and chance.below(3) == 0:
            a["paths"] = 2
        if a["paths"] == 1:
            a["path_regs"] = self.paths(1 if kind == reading.HOST else 8)
        return a

    def device(self, earlier):
        chance = self.chance
        kind = chance.one_of([1, 1, 1, 1, 1, 1, 1, 1, 2, 2, 2, 0, 3, 4, 5])
        route = chance.one_of(ROUTES)
        domain = chance.one_of([0, 0, 0, 1, 2**32 - 1])
        routers = [d for d in earlier if d["kind"] == 1]
        if routers and chance.below(4):  # beneath one that is there
            up = chance.one_of(routers)
            domain = up["domain"] if chance.below(8) else domain
            if chance.below(6) == 0:
                route = up["route"]
            elif reading.depth(up["route"]) < 8:
                route = up["route"] | chance.one_of([1, 1, 2, 3, 255]) << 8 * reading.depth(up["route"])
        d = {"kind": kind, "usb4": chance.below(2), "read": 0, "domain": domain, "route": route, "regs": [], "adapters": []}
        if kind == 1:
            up = route > 0 or chance.below(4) == 0
            d["adapters"] = [self.adapter(n + 1, lane=n == 0 and up) for n in range(chance.one_of([0, 1, 1, 2, 2, 3, 3, 4, 5, 6]))]
            d["read"] = int(bool(d["adapters"]) or chance.below(3) > 0)
            d["regs"] = self.router_regs(d["adapters"]) if d["read"] else []
        return d

    def survey(self):
        devices = []
        for _ in range(self.chance.one_of([1, 1, 2, 2, 2, 3, 4])):
            devices.append(self.device(devices))
        return devices

    # ---- damage: a device or an adapter is changed so that loading has something to refuse

    def damage(self, devices):
        devices = copy.deepcopy(devices)
        ways = [self.few, self.few, self.numbers, self.numbers, self.owner, self.missing, self.missing, self.nameless, self.nameless, self.kind]
        for _ in range(self.chance.one_of([1, 1, 1, 2])):
            self.chance.one_of(ways)(devices)
        return devices

    def few(self, devices):
        d = self.chance.one_of(devices)
        read = [a for a in d["adapters"] if a["read"]]
        if read and self.chance.below(4):
            a = self.chance.one_of(read)
            a["regs"] = sorted(a["regs"], key=lambda r: r[0])[:self.chance.below(3)]
        elif d["kind"] == 1:
            d["read"], d["regs"] = 1, []

    def numbers(self, devices):
        adapters = self.chance.one_of(devices)["adapters"]
        what = self.chance.below(5)
        if what == 0 and adapters:
            adapters.pop()
        elif what == 1:
            adapters.append(self.adapter(len(adapters) + 1))
        elif what == 2 and len(adapters) > 1:
            adapters[0], adapters[1] = adapters[1], adapters[0]
        elif what == 3 and adapters:
            adapters[-1]["number"] = self.chance.one_of([255, len(adapters) - 1 or 2, len(adapters) + 1])
        elif adapters:
            adapters.insert(0, copy.deepcopy(adapters[0]))

    def owner(self, devices):
        d = self.chance.one_of(devices)
        what = self.chance.below(3)
        if what == 0:
            d["kind"], d["read"], d["regs"] = self.chance.one_of([0, 2, 3, 4, 5]), 0, []
        elif what == 1:
            d["read"], d["regs"] = 0, []
        for r in d["regs"]:
            r[1 + self.chance.below(2)] ^= 1

    def missing(self, devices):
        for a in self.chance.one_of(devices)["adapters"]:
            if self.chance.below(2):
                a["paths"], a["path_regs"] = 2, []

    def nameless(self, devices):
        for a in self.chance.one_of(devices)["adapters"]:
            if a["paths"] == 1:
                h = self.chance.one_of([0, 1, 7, 8, 8, 9])
                a["path_regs"].append(self.reg(2 * h + self.chance.below(5) // 4, 1, value=self.chance.below(2) << 31))

    def kind(self, devices):
        for a in self.chance.one_of(devices)["adapters"]:
            if a["regs"] and self.chance.below(2):
                regs = sorted(a["regs"], key=lambda r: r[0])
                regs[min(2, len(regs) - 1)][4] = self.chance.one_of(self.codes)


def register_group(space, r):
    return [5 << 28 | space << 16 | r[0], r[1] << 16 | r[2], r[3], r[4]]


def survey_words(devices):
    t = []
    for d in devices:
        t += [3 << 28 | d["kind"] << 24 | d["read"] << 1 | d["usb4"], d["domain"], d["route"] % 2**32, d["route"] >> 32]
        t += [w for r in sorted(d["regs"], key=lambda r: r[0]) for w in register_group(0, r)]
        for a in d["adapters"]:
            t.append(4 << 28 | a["paths"] << 9 | a["read"] << 8 | a["number"])
            t += [w for r in sorted(a["regs"], key=lambda r: r[0]) for w in register_group(0, r)]
            t += [w for r in sorted(a["path_regs"], key=lambda r: r[0]) for w in register_group(1, r)]
    return t


def flipped_words(chance, t):
    """A copy with one bit flipped that still keeps the rules, or None."""
    t = list(t)
    t[chance.below(len(t))] ^= 1 << chance.below(32)
    try:
        reading.survey(t)
    except reading.Refused:
        return None
    return t


def surveys(chance, sets, favoured, count):
    """As many lists of words: whole, damaged in a device, or with a bit flipped."""
    fabric, made = Fabric(chance, sets, favoured), []
    while len(made) < count:
        devices = fabric.survey()
        made.append(survey_words(devices))
        if chance.below(2) == 0:
            made.append(survey_words(fabric.damage(devices)))
        if chance.below(8) == 0:
            flipped_one = flipped_words(chance, made[-1])
            made += [flipped_one] if flipped_one else []
    return made[:count]
