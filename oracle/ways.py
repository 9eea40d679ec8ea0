"""Fabrics that walks go through, from a seed: trees of routers, and tours over them that end or come round again."""
import reading
from described import set_words
from fabric import Fabric, survey_words

LANE = 1
ENDS = [2, 0x0E0101, 0x0E0102, 0x100101, 0x100102, 0x200101, 0x200102, 0x210101]
TOPS = [0, 0, 0, 0x0001_0000_0001, 0x0102_0304_0506, 0x01_0000_0000_0002, 0xFF_0001_0203_0405, 0xFF_FFFF_FFFF_FFFF]


class Ways(Fabric):
    """One fabric: devices, what reading.py makes of them, and the HopIDs that are taken."""

    def __init__(self, chance, sets):
        super().__init__(chance, sets, "")
        self.devices, self.taken, self.found, self.loaded = [], {}, None, None

    # ---- devices -------------------------------------------------------------------------------

    def device(self, domain, route, kind=1, read=0):
        return {"kind": kind, "usb4": self.chance.below(2), "read": read, "domain": domain, "route": route, "regs": [], "adapters": []}

    def router(self, domain, route, codes, up, unread=0):
        """A router with adapters of those codes, numbered from 1, and no entries; one of them may be unread."""
        d = self.device(domain, route, read=1)
        d["regs"] = [self.reg(1, 1, value=self.value("ROUTER_CS_1", Max_Adapter=len(codes), Upstream_Adapter=up))]
        for n, code in enumerate(codes, 1):
            regs = [self.reg(0, 0), self.reg(1, 1), self.reg(2, 2, value=code | self.chance.below(256) << 24)]
            d["adapters"].append({"number": n, "read": int(n != unread), "paths": 1, "regs": regs if n != unread else [], "path_regs": []})
        return d

    def some_router(self, domain, route):
        chance = self.chance
        codes = [LANE] * chance.one_of([1, 2, 2, 3, 3, 4]) + [chance.one_of(ENDS) for _ in range(chance.below(3))]
        up = chance.one_of([1, 1, 1, 1, 2, 3, chance.below(len(codes) + 2)])
        if route == 0 and chance.below(2):  # a host
            up = chance.one_of([0, 63])
        return self.router(domain, route, codes, up, 0 if chance.below(10) else len(codes))

    def bare(self, domain, route):
        """A router without adapters: not read, with no ROUTER_CS_1, with one, or with the one that lacks Upstream Adapter where a set has that."""
        d = self.router(domain, route, [], self.chance.one_of([1, 1, 2]))
        shape = self.chance.below(6)
        if shape == 0:
            return self.device(domain, route)
        d["regs"][0][1] = [3, 1, 9, 9, 9][shape - 1]
        return d

    def below(self, d):
        """A route behind one of a router's adapters, or None at depth 8; now and then with a zero byte between."""
        depth = reading.depth(d["route"]) + (self.chance.below(14) == 0)
        n = 1 + self.chance.below(len(d["adapters"]) + (self.chance.below(12) == 0)) if d["adapters"] else 1
        return None if depth > 7 else d["route"] | n << 8 * depth

    def tree(self, routers):
        """Routers of one or two domains, each below another or beside it; twins, routers without adapters and other devices in between."""
        chance = self.chance
        bare = chance.one_of([2, 7, 7])
        for domain in chance.one_of([[0], [0], [0], [7], [0, 1], [2**32 - 1, 0]]):
            made = [self.some_router(domain, chance.one_of(TOPS))]
            while len(made) < routers:
                above = made[-1] if chance.below(2) else chance.one_of(made)
                route = self.below(above) if chance.below(8) else above["route"]
                if route is None:
                    route = made[0]["route"] % 256
                made.append((self.some_router if chance.below(bare) else self.bare)(domain, route))
                if chance.below(5) == 0:  # no router
                    self.devices.append(self.device(domain, route, chance.one_of([0, 2, 2, 2, 3, 4, 5])))
            self.devices += made
        if chance.below(2):
            self.devices = chance.mixed(self.devices)
        self.settle()

    def settle(self):
        """Reads the devices, so that tours know where hops lead."""
        self.found, self.loaded = reading.load(set_words(self.sets), survey_words(self.devices))

    # ---- tours ---------------------------------------------------------------------------------

    def leads(self, place, out):
        """Where a hop leads: a stand, whether it is the last or there is no path, or the refusal's number."""
        try:
            return reading.leads(self.found, self.loaded, place, out)
        except reading.Refused as r:
            return str(r.number)

    def ways_on(self, place):
        """Out adapters of a router that lead on, each with the stand behind it."""
        ways = [(a["number"], self.leads(place, a["number"])) for a in self.loaded[place]["adapters"]]
        return [w for w in ways if isinstance(w[1], tuple)]

    def ends(self, place):
        """Out adapters of a router that don't lead on, by how they end a walk."""
        ends = {}
        for out in (0, *range(1, len(self.loaded[place]["adapters"]) + 1), 63):
            where = self.leads(place, out)
            if not isinstance(where, tuple):
                ends.setdefault(str(where), []).append(out)
        return ends

    def strides(self, stand, count, step=None):
        """So many out adapters from a stand on, each with the next stand, or fewer where none leads on; to the next places alone, if wanted."""
        made = []
        while len(made) < count:
            ways = [w for w in self.ways_on(stand[0]) if step is None or w[1][0] == stand[0] + step]
            if not ways:
                break
            made.append(self.chance.one_of(ways))
            stand = made[-1][1]
        return made

    def round_from(self, stand, count):
        """Strides that come back to a stand after that many, an even number, or None."""
        made = []
        while len(made) < count:
            for _ in range(40):
                part = self.strides(stand, min(count - len(made), self.chance.one_of([2, 2, 4, 6])))
                if part and part[-1][1] == stand:
                    break
            else:
                return None
            made += part
        return made

    def free(self, stand):
        """A HopID that the adapter has no entry for, most often the least."""
        taken = self.taken.setdefault(stand, set())
        hop = self.chance.one_of([8, 8, 8, 9, 2047, self.chance.below(2000) + 8])
        while hop in taken:
            hop = hop + 1 if hop < 2047 else 8
        taken.add(hop)
        return hop

    def entry(self, stand, hop, out, out_hop):
        place, number = stand
        v = self.value("PATH_CS_0", Output_HopID=out_hop, Output_Adapter=out, Valid=1)
        self.devices[place]["adapters"][number - 1]["path_regs"].append(self.reg(2 * hop, 0, value=v))

    def lay(self, stand, strides, hop=None, last=None, spare=True):
        """Entries for strides from a stand on, some of them spare; the HopIDs of all stands. The last out HopID may be given, for a round."""
        hops = [self.free(stand) if hop is None else hop]
        for i, (out, after) in enumerate(strides):
            hops.append(last if last is not None and i == len(strides) - 1 else self.free(after))
            self.entry(stand, hops[i], out, hops[-1])
            if spare and self.chance.below(30) == 0:  # one more for the HopID, which doesn't count
                self.entry(stand, hops[i], self.chance.below(5), hops[-1])
            stand = after
        return hops

    def stands(self):
        return [(p, a["number"]) for p, d in enumerate(self.loaded) for a in d["adapters"]]

    def ring(self, length, tail):
        """A ring that so many strides lead into; where it starts, or None where the fabric has no such."""
        for stand in self.chance.mixed(self.stands()):
            way = self.strides(stand, tail)
            ends = way[-1][1] if way else stand
            back = self.round_from(ends, length)
            if len(way) == tail and back and self.loaded[stand[0]]["adapters"][stand[1] - 1]["kind"] > reading.INACTIVE:
                hops = self.lay(stand, way)
                self.lay(ends, back, hops[-1], hops[-1])
                return stand, hops
        return None

    def path(self, length):
        """A walk of that many hops, which ends in a wanted way where one is found; where it starts, or None."""
        stands = [s for s in self.stands() if self.loaded[s[0]]["adapters"][s[1] - 1]["kind"] > reading.INACTIVE]
        if not stands:
            return None
        wanted = self.chance.one_of(["True", "False", "6", "6", "10", "11", "12", "none"])
        for _ in range(30):
            stand = self.chance.one_of(stands)
            way = self.strides(stand, length - 1)
            last = way[-1][1] if way else stand
            ends = self.ends(last[0])
            if wanted in ends or wanted == "none":
                break
        hops = self.lay(stand, way)
        if wanted != "none":
            out = self.chance.one_of(ends.get(wanted) or self.chance.one_of([ends[k] for k in sorted(ends)]))
            self.entry(last, hops[-1], out, self.chance.one_of([8, hops[-1], self.chance.below(65536)]))
        return stand, hops

    def noise(self):
        """An entry that a walk may come to, a second one for a HopID, one that isn't valid, or one that is never looked at."""
        stand = self.chance.one_of(self.stands())
        hop = self.chance.one_of([8, 8, 9, 10, 7, 1, 32767])
        out = self.chance.below(len(self.loaded[stand[0]]["adapters"]) + 2)
        self.entry(stand, hop, out, self.chance.one_of([8, 9, 10, 2047]))
        if self.chance.below(4) == 0:
            r = self.devices[stand[0]]["adapters"][stand[1] - 1]["path_regs"][-1]
            r[4] &= 2**31 - 1

    def words(self):
        return survey_words(self.devices)


    def starts(self):
        """Every start with an entry, and some without."""
        edges = [0, 1, 7, 8, 9, 2047, 2048, 32767, 32768, 65535]
        return [(p, a["number"], h) for p, d in enumerate(reading.load(set_words(self.sets), self.words())[1]) for a in d["adapters"]
                for h in sorted({e[0] for e in a["entries"]} | {self.chance.one_of(edges)})]


def upstream_lost(sets):
    """Descriptions with a second ROUTER_CS_1, at another place, that lacks Upstream Adapter."""
    most = next(f for d in sets["router"] for f in d["bitfields"] if f["name"] == "Max Adapter")
    return {**sets, "router": [*sets["router"], {"name": "Router_CS_1", "offset": 9, "bitfields": [most]}]}


PAIR_END = 4  # the upper router's adapter that ends a walk


def pair(chance, sets):
    """Two routers, one below the other, for tours of any length: 108 words."""
    ways = Ways(chance, sets)
    n = chance.one_of([1, 2, 3])
    ways.devices = [ways.router(0, 0, [LANE] * 3 + [0x100101], 63), ways.router(0, n, [LANE, LANE, 0x100102, 0], chance.one_of([1, 2]), 4)]
    ways.settle()
    return ways, (0, n)


def rings(chance, sets, lengths):
    """Rings of these lengths in one fabric, each entered from a tail; the starts of tails, and on the rings."""
    ways, _ = pair(chance, sets)
    starts = []
    for length in lengths:
        tail = chance.below(4)
        stand, hops = ways.ring(length, tail)
        starts.append((*stand, hops[0]))
    return ways, starts


def longest(chance, sets, lengths):
    """A walk through as many entries as a survey can hold, and the starts that have so many hops to go."""
    ways, stand = pair(chance, sets)
    count = (reading.LONGEST - len(ways.words())) // 4
    if count % 2 == 0:  # the last entry is the upper router's
        stand = (1, ways.ways_on(0)[0][1][1])
    way = ways.strides(stand, count - 1)
    hops = ways.lay(stand, way, spare=False)
    stands = [stand] + [after for _, after in way]
    ways.entry(stands[-1], hops[-1], PAIR_END, 8)
    return ways, [(*stands[count - n], hops[count - n]) for n in [*lengths, count]]


def chain(chance, sets):
    """Routers at depths 0 to 8, each below the one before; down to the last and a stride more, and up to the first and a stride more."""
    ways, route = Ways(chance, sets), 0
    for depth in range(9):
        ways.devices.append(ways.router(3, route, [LANE] * 4 + [0x200102], 1))
        route |= chance.one_of([2, 3, 4]) << 8 * depth
    ways.settle()
    starts = []
    for stand, step, wanted in (((0, 5), 1, "True"), ((0, 5), 1, "12"), ((0, 2), 1, "10"),
                                ((8, 5), -1, "True"), ((8, 5), -1, "11"), ((8, 4), -1, "10")):
        way = ways.strides(stand, 8, step)
        hops = ways.lay(stand, way)
        ways.entry(way[-1][1], hops[-1], chance.one_of(ways.ends(way[-1][1][0])[wanted]), 8)
        starts.append((*stand, hops[0]))
    return ways, starts


def mixture(chance, sets):
    """A tree with tours, and the starts of these."""
    ways = Ways(chance, sets)
    ways.tree(chance.one_of([1, 2, 2, 3, 3, 4, 4, 5, 6, 9]))
    starts = []
    if ways.stands():
        for _ in range(2 + chance.below(4)):
            starts.append(ways.path(1 + chance.below(12)) if chance.below(3) else ways.ring(2 * (1 + chance.below(6)), chance.below(4)))
        for _ in range(chance.below(6)):
            ways.noise()
    return ways, [(*stand, hops[0]) for stand, hops in filter(None, starts)]
