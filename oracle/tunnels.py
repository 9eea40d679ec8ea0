"""Fabrics that tunnels run through, from a seed: hosts with devices and other hosts below them, and the entries of tunnels, whole and broken."""
import collections

import reading
from fabric import survey_words
from ways import LANE, TOPS, Ways

DEEP = [*TOPS[3:], 0xFF_FFFF_FFFF_FFFF, 0x0101_0101_0101_0101]
HOST, DP_IN, DP_OUT, PCIE_DOWN, PCIE_UP, USB3_DOWN, USB3_UP, GEN_T = 2, 0x0E0101, 0x0E0102, 0x100101, 0x100102, 0x200101, 0x200102, 0x210101
SOURCES = [HOST, HOST, DP_IN, PCIE_DOWN, USB3_DOWN]
ENDS = {DP_IN: DP_OUT, PCIE_DOWN: PCIE_UP, USB3_DOWN: USB3_UP}
OTHERS = [0, 0x123456, GEN_T]  # of these kinds no tunnel starts


class Tunnels(Ways):
    """One fabric. A path's end is a place and an out adapter there, or one of `broken`."""

    # ---- devices -------------------------------------------------------------------------------

    def equipped(self, d):
        """A router with Max Input HopIDs and what says whether an adapter is enabled."""
        chance = self.chance
        for a in d["adapters"]:
            if not a["read"]:
                continue
            code = a["regs"][2][4] & 0xFFFFFF
            most = chance.one_of([0, 1, 2, 2, 3, 3, 4, 5]) if code == HOST else chance.one_of([7, 8, 8, 9, 9, 10, 11, 12])
            if chance.below(25 if code == HOST else 12) and code in (HOST, LANE) or chance.below(4) == 0:
                a["regs"].append(self.reg(5, 5, value=self.value("ADP_CS_5", Max_Input_HopID=most)))
            if code not in (LANE, HOST):
                flags = (3 if chance.below(12) else chance.below(4)) << 30 | chance.below(2**30)
                a["regs"].append(self.reg(0x39, 0, 4, value=flags if code != GEN_T else self.value("ADP_USB3_GT_CS_0", Gen_T_Port_Count=0)))
        return d

    def host(self, domain, route):
        chance = self.chance
        codes = [LANE] * chance.one_of([1, 2, 2, 3]) + chance.mixed(SOURCES)[:chance.one_of([1, 2, 3, 3, 4])]
        if chance.below(5) == 0:
            codes.append(chance.one_of(OTHERS))
        up = chance.one_of([0, 63, 63]) if chance.below(5) else 1 + chance.below(2)
        return self.equipped(self.router(domain, route, codes, up, len(codes) if chance.below(25) == 0 else 0))

    def below_it(self, domain, route, wanted):
        """A router with adapters where tunnels of the wanted kinds end."""
        chance = self.chance
        codes = [LANE] * chance.one_of([1, 2, 2]) + wanted[:chance.one_of([1, 2, 2, 3])]
        if chance.below(5) == 0:
            codes.append(chance.one_of([*SOURCES, *OTHERS]))
        return self.equipped(self.router(domain, route, codes, 1 if chance.below(12) else chance.below(len(codes) + 1)))

    def free_lanes(self, routers):
        """Routes behind lanes that no router stands behind."""
        taken = {(d["domain"], d["route"]) for d in routers}
        return [(d["domain"], d["route"] | n << 8 * reading.depth(d["route"])) for d in routers if reading.depth(d["route"]) < 8
                for n, a in enumerate(d["adapters"], 1) if a["read"] and a["regs"][2][4] & 0xFFFFFF == LANE
                and (d["domain"], d["route"] | n << 8 * reading.depth(d["route"])) not in taken]

    def xdomain(self, routers):
        """An xdomain behind a lane; now and then one that is no good."""
        chance = self.chance
        lanes = self.free_lanes(routers)
        d = chance.one_of(routers)
        depth = reading.depth(d["route"])
        domain, route = chance.one_of(lanes) if lanes and chance.below(4) else (d["domain"], d["route"])
        what = chance.below(28)
        if what == 0:
            route = 0  # has no parent route
        elif what < 3:
            domain += 1  # of another domain
        elif what == 3 and depth < 7:
            route = d["route"] | 1 << 8 * (depth + 1)  # not right below its parent
        elif what == 4:
            route = 0x0201  # below a router that isn't there
        elif what < 9 and depth < 8:
            route = d["route"] | chance.one_of([1, len(d["adapters"]), len(d["adapters"]), len(d["adapters"]) + 1, 255]) << 8 * depth
        return self.device(domain % 2**32, route, 2)

    def plan(self):
        """A host or two, routers below, and xdomains, in any order."""
        chance = self.chance
        routers = []
        for domain in chance.one_of([[0], [0], [0], [9], [0, 1]]):
            top = self.host(domain, chance.one_of(DEEP) if chance.below(5) == 0 else 0)
            routers.append(top)
            wanted = [ENDS[a["regs"][2][4] & 0xFFFFFF] for a in top["adapters"] if a["read"] and a["regs"][2][4] & 0xFFFFFF in ENDS]
            for _ in range(chance.one_of([0, 1, 1, 1, 2, 2, 3])):
                lanes = [l for l in self.free_lanes(routers) if l[0] == domain]
                if lanes:
                    make = self.below_it if chance.below(7) else lambda domain, route, _: self.bare(domain, route)
                    routers.append(make(*chance.one_of(lanes), chance.mixed(wanted)))
        others = [self.xdomain(routers) for _ in range(chance.one_of([0, 1, 1, 1, 2, 2, 3]))]
        if chance.below(8) == 0:
            others.append(self.device(0, chance.below(3), chance.one_of([0, 3, 4, 5])))
        self.devices = routers + others
        if chance.below(3) == 0:
            self.devices = chance.mixed(self.devices)
        self.settle()

    # ---- paths ---------------------------------------------------------------------------------

    def reached(self, place):
        """Strides from a router to each router that hops lead to."""
        ways, left = {place: []}, collections.deque([place])
        while left:
            at = left.popleft()
            for out, after in self.ways_on(at):
                if after[0] not in ways:
                    ways[after[0]] = ways[at] + [(out, after)]
                    left.append(after[0])
        return ways

    def way_for(self, stand, end):
        """Strides to where a path ends, or None."""
        ways = self.reached(stand[0])
        if isinstance(end, tuple):
            return ways.get(end[0])
        if end == "stop":
            return self.strides(stand, self.chance.one_of([0, 1, 2]))
        fit = [w for p, w in ways.items() if (w and self.ways_on(p) if end == "ring" else end in self.ends(p))]
        return self.chance.one_of(fit) if fit else None

    def run(self, stand, hop, end, out_hop=None):
        """Entries for a path from a stand and HopID; where it leaves, or None where it leaves by no adapter."""
        way = self.way_for(stand, end)
        if way is None:
            return None
        self.taken.setdefault(stand, set()).add(hop)
        hops = self.lay(stand, way, hop)
        last = way[-1][1] if way else stand
        if end == "ring":
            back = self.round_from(last, 2)
            if back:
                self.lay(last, back, hops[-1], hops[-1])
        if end in ("ring", "stop"):
            return None
        out = end[1] if isinstance(end, tuple) else self.chance.one_of(self.ends(last[0])[end])
        self.entry(last, hops[-1], out, self.chance.one_of([8, 8, 9, hops[-1], self.chance.below(2048)]) if out_hop is None else out_hop)
        return (last[0], out) if 0 < out <= len(self.loaded[last[0]]["adapters"]) else None

    def broken(self):
        return self.chance.one_of(["stop", "stop", "True", "True", "False", "False", "6", "6", "10", "11", "11", "12", "12", "ring", "ring"])

    def adapters(self, *codes):
        """Stands at adapters of those codes."""
        kinds = {reading.CODES[c] for c in codes}
        return [(p, a["number"]) for p, d in enumerate(self.loaded) for a in d["adapters"] if a["kind"] in kinds]

    def some_end(self, code, odds):
        """Where tunnels of a kind end, most often; else anywhere, or nowhere."""
        good = self.adapters(code)
        if good and self.chance.below(odds):
            return self.chance.one_of(good)
        return self.chance.one_of(self.stands()) if self.chance.below(3) == 0 else self.broken()

    def pair(self, stand, code):
        """Down and up, as USB 3 and PCIe have them; both, one, or none."""
        chance = self.chance
        if chance.below(14) == 0:
            return
        leaves = self.run(stand, 8, self.some_end(ENDS[code], 6))
        if leaves and chance.below(12):
            self.run(leaves, 8, stand if chance.below(4) else self.some_end(code, 3))

    def display(self, stand):
        """Video as a path of its own, then the pair of AUX paths."""
        if self.chance.below(12):
            self.run(stand, 9, self.some_end(DP_OUT, 6))
        self.pair(stand, DP_IN)

    # ---- rings ---------------------------------------------------------------------------------

    def lanes(self):
        """Where paths of xdomains come in."""
        found = []
        for p, d in enumerate(self.loaded):
            try:
                lane = reading.lane_of(self.found, self.loaded, p) if d["kind"] == 2 else None
            except reading.Refused:
                lane = None
            found += [lane] if lane and lane[2] else []
        return found

    def rings(self, stand):
        """TX and RX of some rings of a host interface, each or both."""
        chance, lanes = self.chance, self.lanes()
        a = self.loaded[stand[0]]["adapters"][stand[1] - 1]
        try:
            most = reading.max_hop(self.found, a, stand) or 0
        except reading.Refused:
            most = 2
        for ring in [*range(1, min(most, 5) + 1)] + [most + 1] * (chance.below(8) == 0):
            if chance.below(3):
                out = chance.one_of(lanes)[:2] if lanes and chance.below(6) else self.some_end(chance.one_of([HOST, PCIE_UP]), 3)
                self.run(stand, ring, out)
            if lanes and chance.below(3):
                self.receive(chance.one_of(lanes), stand, ring)
        if lanes and chance.below(2) == 0:  # another ring's, or one that comes to nothing
            self.receive(chance.one_of(lanes), stand if chance.below(3) == 0 else self.broken(), chance.below(most + 3))

    def receive(self, lane, end, ring):
        place, number, hops = lane
        taken = self.taken.setdefault((place, number), set())
        left = [h for h in (*hops, hops[-1] + 1) if h not in taken]
        if left:
            self.run((place, number), left[0] if self.chance.below(3) else self.chance.one_of(left), end, ring)

    def tunnels(self):
        """Entries for what may start at each adapter; some noise."""
        for stand in self.chance.mixed(self.stands()):
            kind = self.loaded[stand[0]]["adapters"][stand[1] - 1]["kind"]
            if kind == reading.HOST:
                self.rings(stand)
            elif kind == reading.DP_IN:
                self.display(stand)
            elif kind in reading.PAIRS:
                self.pair(stand, PCIE_DOWN if kind == reading.PCIE_DOWN else USB3_DOWN)
        if self.stands():
            for _ in range(self.chance.one_of([0, 0, 0, 1, 2])):
                self.noise()


def some(chance, sets):
    """A fabric with tunnels; its survey words."""
    made = Tunnels(chance, sets)
    made.plan()
    made.tunnels()
    return made


def damaged(made):
    """A copy with a fault for loading to find."""
    return survey_words(made.damage(made.devices))


def lane_lost(sets):
    """Descriptions by which ADP_CS_5 has a field on a host interface alone."""
    five = next(d for d in sets["adapter"] if d["name"] == "ADP_CS_5")
    lanes = {**five, "adapter_type": ["Lane", "PCIe Down"], "bitfields": []}
    return {**sets, "adapter": [d for d in sets["adapter"] if d is not five] + [{**five, "adapter_type": ["Host Interface"]}, lanes]}


# ---- long answers, and the most there can be ------------------------------------------------------


def two_hosts(chance, sets, rings, hops, code=HOST):
    """A host with a router below it, and another host below that; adapter 3 of the first is of that code."""
    made = Tunnels(chance, sets)
    made.devices = [made.router(0, 0, [LANE, LANE, code], 63), made.router(0, 1, [LANE, LANE, USB3_UP], 1), made.device(0, 0x201, 2)]
    for d, n, most in ((0, 3, rings), (1, 2, hops)):
        made.devices[d]["adapters"][n - 1]["regs"].append(made.reg(5, 5, value=made.value("ADP_CS_5", Max_Input_HopID=most)))
    made.settle()
    return made


def tour(made, stand, count):
    """So many strides forth and back between the two routers, from a stand of the upper one."""
    return made.strides(stand, count - count % 2)


def long_list(chance, sets, count):
    """A USB 3 tunnel, each path of so many hops."""
    made = two_hosts(chance, sets, 1, 8, USB3_DOWN)
    made.devices[0]["adapters"][2]["regs"].append(made.reg(0x39, 0, 4, value=3 << 30))
    down = tour(made, (0, 3), count) + [(1, (1, 1))]
    hops = made.lay((0, 3), down, 8, spare=False)
    made.entry((1, 1), hops[-1], 3, 8)
    up = [(1, (0, 1))] + tour(made, (0, 1), count)
    hops = made.lay((1, 3), up, 8, spare=False)
    made.entry((0, 1), hops[-1], 3, 8)
    return made.words()


def many_rings(chance, sets, rings, count):
    """Rings whose TX paths all go on as one: an answer longer than its survey."""
    made = two_hosts(chance, sets, rings, 8 + rings // 2)
    first = made.free((1, 1))
    for ring in range(1, rings + 1):
        made.entry((0, 3), ring, 1, first)
    back = [(1, (0, 1))] + tour(made, (0, 1), count) + [(1, (1, 1))]
    hops = made.lay((1, 1), back, first, spare=False)
    made.entry((1, 1), hops[-1], 2, 8)
    for ring in range(2, rings, 3):
        made.run((1, 2), 8 + ring // 2, (0, 3), ring)
    return made.words()


def many_paths(chance, sets, count):
    """So many receive paths for rings in no order, and a few TX paths."""
    made = two_hosts(chance, sets, count + 3, 8 + count)
    rings = chance.mixed([*range(1, count + 4)])[:count]
    for i, ring in enumerate(rings):
        made.run((1, 2), 8 + i, (0, 3), ring)
    for ring in chance.mixed(rings)[:5]:
        made.run((0, 3), ring, (1, 2))
    return made.words()


def crowded(chance, sets, count):
    """So many receive paths of one hop, most of them for rings that aren't there, and a few TX paths."""
    rings = 6
    made = two_hosts(chance, sets, rings, 7 + count)
    leaves = [100 + i % 1900 for i in range(count)]
    for ring, at in enumerate([0, count - 1] + chance.mixed([*range(1, count - 1)])[: rings - 3], 1):
        leaves[at] = ring
    for i, hop in enumerate(leaves):
        made.entry((1, 2), 8 + i, 3, hop)
    for ring in (1, 2, rings):
        made.run((0, 3), ring, (1, 2))
    return made.words()


def most_rings(chance, sets, rings):
    """The most rings that a host interface can have, and one more: TX of the first and of the last that has entries, RX of the last."""
    made = two_hosts(chance, sets, rings, 9)
    for ring in (1, min(rings, 32767)):
        made.run((0, 3), ring, (1, 2))
    made.run((1, 2), 9, (0, 3), rings % 65536)
    made.run((1, 2), 8, (0, 3), rings // 2)
    return made.words()


def most_hops(chance, sets, hops):
    """The most HopIDs that a lane adapter can have, and one more: RX of two rings at the last HopIDs that have entries."""
    made = two_hosts(chance, sets, 3, hops)
    for ring in (2, 3):
        made.run((0, 3), ring, (1, 2))
    made.run((1, 2), min(hops, 32767), (0, 3), 1)
    made.run((1, 2), min(hops, 32767) - 1, (0, 3), 3)
    return made.words()


def gen_t_fault(chance, sets):
    """A fabric with a Gen T adapter whose port's offset passes 65,535."""
    made = some(chance, sets)
    d = made.router(5, 0, [GEN_T], 63)
    d["adapters"][0]["regs"].append(made.reg(65533, 0, 4, value=made.value("ADP_USB3_GT_CS_0", Gen_T_Port_Count=1)))
    made.devices.insert(chance.below(len(made.devices) + 1), d)
    return made.words()
