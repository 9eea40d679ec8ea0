"""Document 01's loading, walks and discovery, read into Python: what make-loads, make-walks and make-discoveries compare the Rust's answers with,
and make-load-rules, make-walk-rules and make-discovery-rules their expected values. A refusal is an exception. Answers are words, as make-loads
says. HopIDs and the order of walks in a discovery are in tunnel.rs alone, which module 7 names; all else is read from the document's text."""

LONGEST = 16384
UNKNOWN, INACTIVE, LANE, HOST, DP_IN, DP_OUT, PCIE_DOWN, PCIE_UP, USB3_DOWN, USB3_UP, GEN_T_DOWN, GEN_T_UP = range(12)
CODES = {0: INACTIVE, 1: LANE, 2: HOST, 0x0E0101: DP_IN, 0x0E0102: DP_OUT, 0x100101: PCIE_DOWN, 0x100102: PCIE_UP, 0x200101: USB3_DOWN,
         0x200102: USB3_UP, 0x210101: GEN_T_DOWN, 0x210102: GEN_T_UP}
# States in the order of `State`: Unknown, Disabled, Enabled, Training, CL0, CL0s TX, CL0s RX, CL1, CL2, CLd.
STATE_UNKNOWN, DISABLED, ENABLED = range(3)
LANE_STATES = {0: 1, 1: 3, 2: 4, 3: 5, 4: 6, 5: 7, 6: 8, 7: 9}
UP = {4, 5, 6, 7, 8}
SPEEDS = {8: 1, 4: 2, 2: 3}


class Refused(Exception):
    def __init__(self, number, place=0, adapter=0):
        super().__init__(number, place, adapter)
        self.number, self.place, self.adapter = number, place, adapter

    def word(self):
        return 15 << 28 | self.number << 24 | self.place << 8 | self.adapter


# ---- words -------------------------------------------------------------------------------------


def bits(w, low, high):
    return w >> low & (1 << high - low + 1) - 1


def text(words, length):
    """A name of so many bytes, or None where a byte or the padding breaks the rules."""
    if len(words) < (length + 3) // 4:
        return None
    b = b"".join(w.to_bytes(4, "little") for w in words[:(length + 3) // 4])
    if any(not 32 <= c <= 126 for c in b[:length]) or any(b[length:]):
        return None
    return b[:length].decode().lower()


def described_register(t, i):
    """A register description at i, and the place after it."""
    if len(t) < i + 3:
        return None
    head, ids, types = t[i:i + 3]
    space, cap, vs, length = bits(head, 26, 27), bits(head, 25, 25), bits(head, 24, 24), bits(head, 16, 23)
    if space == 3 or not 1 <= length <= 64 or types >> 13 or (types and not types >> 12):
        return None
    if (not cap and ids >> 16) or (not vs and ids & 65535):
        return None
    name = text(t[i + 3:], length)
    if name is None:
        return None
    kinds = {k for k in range(12) if types >> k & 1} if types >> 12 else None
    return {"place": i, "space": space, "offset": head & 65535, "cap": ids >> 16 if cap else None, "vs": ids & 65535 if vs else None, "kinds": kinds,
            "name": name, "fields": []}, i + 3 + (length + 3) // 4


def described_field(t, i):
    head = t[i]
    start, end, length, short = bits(head, 23, 27), bits(head, 18, 22), bits(head, 8, 15), bits(head, 0, 7)
    if end < start or bits(head, 16, 17) or not 1 <= length <= 64 or short > 64:
        return None
    j = i + 1 + (length + 3) // 4
    names = text(t[i + 1:], length), text(t[j:], short)
    if None in names:
        return None
    return (start, end, {n for n in names if n}), j + (short + 3) // 4


def descriptions(t):
    """The registers of description words, or 3."""
    if len(t) > LONGEST:
        raise Refused(3, LONGEST)
    found, i = [], 0
    while i < len(t):
        kind = t[i] >> 28
        group = described_register(t, i) if kind == 1 else described_field(t, i) if kind == 2 and found else None
        if group is None:
            raise Refused(3, i)
        if kind == 1:
            found.append(group[0])
        else:
            found[-1]["fields"].append(group[0])
        i = group[1]
    return found


def device_group(t, i):
    """A device at i, and the place after it."""
    w = t[i]
    kind, read = bits(w, 24, 27), w >> 1 & 1
    if i + 4 > len(t) or kind > 5 or w & 0x00FFFFFC or (read and kind != 1):
        return None
    return {"kind": kind, "usb4": w & 1, "read": read, "domain": t[i + 1], "route": t[i + 2] | t[i + 3] << 32, "regs": [], "adapters": []}, i + 4


def adapter_group(t, i):
    w = t[i]
    if not w & 255 or bits(w, 9, 10) == 3 or w & 0x0FFFF800:
        return None
    return {"number": w & 255, "read": w >> 8 & 1, "paths": bits(w, 9, 10), "regs": [], "path_regs": []}, i + 1


def register_group(t, i, owner):
    """A register at i under a head whose mark says read, offsets not falling, no adapter space after path space."""
    w = t[i]
    path = w >> 16 & 1
    if i + 4 > len(t) or w & 0x0FFE0000 or t[i + 2] > 65535:
        return None
    if path and owner.get("paths") != 1 or not path and (not owner["read"] or owner.get("path_regs")):
        return None
    before = owner["path_regs" if path else "regs"]
    if before and w & 65535 < before[-1]["offset"]:
        return None
    return {"path": path, "offset": w & 65535, "relative": t[i + 1] >> 16, "cap": t[i + 1] & 65535, "vs": t[i + 2], "value": t[i + 3]}, i + 4


def survey(t):
    """The devices of survey words, or 4."""
    if len(t) > LONGEST:
        raise Refused(4, LONGEST)
    devices, owner, i = [], None, 0
    while i < len(t):
        kind = t[i] >> 28
        group = (device_group(t, i) if kind == 3 else adapter_group(t, i) if kind == 4 and owner
                 else register_group(t, i, owner) if kind == 5 and owner else None)
        if group is None:
            raise Refused(4, i)
        g, i = group
        if kind == 3:
            devices.append(g)
            owner = g
        elif kind == 4:
            devices[-1]["adapters"].append(g)
            owner = g
        else:
            owner["path_regs" if g["path"] else "regs"].append(g)
    return devices


# ---- names and fields (module 4) ---------------------------------------------------------------


def named(found, space, kind, r):
    """The one description that names a register, or None."""
    left = [d for d in found if d["space"] == space and d["offset"] == r["relative"]]
    if space:
        left = [d for d in left if d["kinds"] is None or kind in d["kinds"]]
    if r["cap"]:
        left = [d for d in left if d["cap"] == r["cap"]]
    else:
        left = [d for d in left if d["cap"] is None and d["vs"] is None]
    if r["vs"]:
        left = [d for d in left if d["vs"] == r["vs"]]
    return left[0] if len(left) == 1 else None


def by_name(found, space, kind, regs, name):
    """The first register of that name, with its description."""
    for r in regs:
        d = named(found, space, kind, r)
        if d and d["name"] == name:
            return r, d
    return None


def field(d, r, name, site):
    for start, end, names in d["fields"] if d else []:
        if name in names:
            return bits(r["value"], start, end)
    raise Refused(6, *site)


def flag(d, r, name, site):
    for start, end, names in d["fields"] if d else []:
        if name in names:
            if start != end:
                break
            return bits(r["value"], start, end)
    raise Refused(6, *site)


# ---- adapters (module 5) -----------------------------------------------------------------------


def find_cap(a, cap):
    """From the first to the last match after index 0, the last left out; two are needed."""
    at = [i for i, r in enumerate(a["regs"]) if r["cap"] == cap and i]
    return (at[0], at[-1]) if len(at) > 1 else None


def gen_t(found, a, r, d, site):
    ports = field(d, r, "gen t port count", site) % 65536
    for p in range(ports):
        offset = r["offset"] + 3 + 2 * p
        if offset > 65535:
            raise Refused(8, *site)
        port = next((x for x in a["regs"] if x["offset"] == offset), None)
        if port:
            names = named(found, 1, a["kind"], port)
            if flag(names, port, "pe", site) and flag(names, port, "v", site):
                return ENABLED
    return DISABLED


def state(found, a, site):
    kind = a["kind"]
    if kind == HOST:
        return ENABLED
    name = {LANE: "lane_adp_cs_1", DP_IN: "adp_dp_cs_0", DP_OUT: "adp_dp_cs_0", PCIE_DOWN: "adp_pcie_cs_0", PCIE_UP: "adp_pcie_cs_0",
            USB3_DOWN: "adp_usb3_gx_cs_0", USB3_UP: "adp_usb3_gx_cs_0", GEN_T_DOWN: "adp_usb3_gt_cs_0", GEN_T_UP: "adp_usb3_gt_cs_0"}.get(kind)
    at = by_name(found, 1, kind, a["regs"], name)
    if not at:
        return STATE_UNKNOWN
    r, d = at
    if kind == LANE:
        return LANE_STATES.get(field(d, r, "adapter state", site), STATE_UNKNOWN)
    if kind in (GEN_T_DOWN, GEN_T_UP):
        return gen_t(found, a, r, d, site)
    # The Rust's order, the second only if the first is set.
    flags = {DP_IN: ("ve", "ae"), DP_OUT: ("ve", "ae"), PCIE_DOWN: ("pe",), PCIE_UP: ("pe",), USB3_DOWN: ("pe", "v"), USB3_UP: ("pe", "v")}[kind]
    return ENABLED if all(flag(d, r, f, site) for f in flags) else DISABLED


def min_hop(kind):
    return None if kind in (UNKNOWN, INACTIVE) else 1 if kind == HOST else 8


def entries(found, a, site):
    """The valid entries, as HopID, out adapter, out HopID."""
    least, kept = min_hop(a["kind"]), []
    if least is None:
        return kept
    for r in a["path_regs"]:
        if r["offset"] % 2 == 0 and r["offset"] >= 2 * least:
            d = named(found, 2, a["kind"], r)
            if flag(d, r, "valid", site):
                hop = field(d, r, "output hopid", site) % 65536
                kept.append((r["offset"] // 2, field(d, r, "output adapter", site) % 256, hop))
    return kept


def load_adapter(found, device, a, site):
    if a["read"] and len(a["regs"]) < 3:
        raise Refused(5, *site)
    a["kind"] = CODES.get(a["regs"][2]["value"] & 0xFFFFFF, UNKNOWN) if a["read"] else INACTIVE
    a["state"] = state(found, a, site)
    a["lane0"] = a["kind"] == LANE and (a["number"] in (1, 3) or bool(device["usb4"] and find_cap(a, 6)))
    a["lane1"] = a["kind"] == LANE and not a["lane0"]
    if a["paths"] == 2 and not a["lane1"]:
        raise Refused(9, *site)
    a["entries"] = entries(found, a, site)
    a["first"] = {e[0]: e for e in reversed(a["entries"])}


def load_device(found, place, device):
    if device["read"] and not device["regs"]:
        raise Refused(5, place, 0)
    if device["adapters"]:
        at = by_name(found, 0, 0, device["regs"], "router_cs_1") if device["kind"] == 1 else None
        if not at:
            raise Refused(7, place, 0)
        r, d = at
        most = field(d, r, "max adapter", (place, 0)) % 256
        device["upstream"] = field(d, r, "upstream adapter", (place, 0)) % 256
        if [a["number"] for a in device["adapters"]] != list(range(1, most + 1)):
            raise Refused(7, place, 0)
        for a in device["adapters"]:
            load_adapter(found, device, a, (place, a["number"]))


def load(description_words, survey_words):
    """Descriptions and devices, or 3, 4 or the refusal in loading."""
    found = descriptions(description_words)
    devices = survey(survey_words)
    for place, device in enumerate(devices):
        load_device(found, place, device)
    return found, devices


# ---- routes (module 6) and what is asked -------------------------------------------------------


def depth(route):
    return (route.bit_length() + 7) // 8


def upstream_route(route, site):
    if depth(route) == 0:
        raise Refused(11, *site)
    return route % 256 ** (depth(route) - 1)


def downstream_route(route, number, site):
    if depth(route) == 8:
        raise Refused(12, *site)
    return route + number * 256 ** depth(route)


def upstream_adapter(found, devices, place):
    d = devices[place]
    at = by_name(found, 0, 0, d["regs"], "router_cs_1") if d["kind"] == 1 else None
    return field(at[1], at[0], "upstream adapter", (place, 0)) % 256 if at else None


def parent_from(found, devices, place):
    d = devices[place]
    if d["kind"] == 1:
        n = upstream_adapter(found, devices, place)
        a = numbered(d, n)
        if not a or a["kind"] != LANE:
            return None
        route = upstream_route(d["route"], (place, n))
    elif d["kind"] == 2:
        route = upstream_route(d["route"], (place, 0))
    else:
        return None
    return router_at(devices, d["domain"], route)


def router_at(devices, domain, route):
    """The place of the first router of a domain at a route."""
    return next((i for i, p in enumerate(devices) if p["kind"] == 1 and p["domain"] == domain and p["route"] == route), None)


def downstream_adapter(router, device):
    """The adapter of a router behind which a device hangs, or None where it isn't right below."""
    shift = 256 ** depth(router["route"])
    if device["domain"] != router["domain"] or depth(device["route"]) != depth(router["route"]) + 1 or device["route"] % shift != router["route"]:
        return None
    return device["route"] // shift % 256


def numbered(d, number):
    return next((a for a in d["adapters"] if a["number"] == number), None)


def link_speed(found, a, site):
    at = by_name(found, 1, a["kind"], a["regs"], "lane_adp_cs_1")
    if a["kind"] != LANE or a["state"] not in UP or not at:
        return 0
    return SPEEDS.get(field(at[1], at[0], "current link speed", site), 0)


def max_hop(found, a, site):
    at = by_name(found, 1, a["kind"], a["regs"], "adp_cs_5")
    most = field(at[1], at[0], "max input hopid", site) if at else 65536
    return most if most < 65536 else None


def enabled(a):
    return a["kind"] not in (UNKNOWN, INACTIVE, LANE) and a["state"] == ENABLED


def value(call):
    """An answer's word: none, a value, or a refusal."""
    try:
        v = call()
    except Refused as r:
        return [r.word()]
    return [0] if v is None else [1 << 28 | v]


def wide(call):
    try:
        v = call()
    except Refused as r:
        return [r.word()]
    return [0] if v is None else [2 << 28, v % 2**32, v >> 32]


def device_answers(found, devices, place):
    d = devices[place]
    info = [3 << 28 | d["kind"] << 8 | d["usb4"] << 4 | depth(d["route"]), d["domain"], d["route"] % 2**32, d["route"] >> 32]
    return info + value(lambda: upstream_adapter(found, devices, place)) + value(lambda: parent_from(found, devices, place))


def cap_word(a, cap):
    at = find_cap(a, cap)
    return value(lambda: (at[0] << 12) + at[1] if at else None)


def adapter_answers(found, d, a, place):
    site = place, a["number"]
    info = a["kind"] | a["state"] << 4 | a["lane0"] << 8 | a["lane1"] << 9 | enabled(a) << 10
    lane = a["kind"] == LANE
    up = lane and a["number"] == d["upstream"]
    return [*value(lambda: info), *value(lambda: min_hop(a["kind"])), *value(lambda: link_speed(found, a, site)),
            *value(lambda: max_hop(found, a, site)), *cap_word(a, 1), *cap_word(a, 4), *cap_word(a, 6),
            *wide(lambda: upstream_route(d["route"], site) if up else None),
            *wide(lambda: downstream_route(d["route"], a["number"], site) if lane else None)]


def path_word(a, hop):
    entry = a["first"].get(hop)
    return value(lambda: (entry[1] << 16) + entry[2] if entry else None)


# ---- the walk (module 7) ------------------------------------------------------------------------


def leads(found, devices, place, out):
    """Where a hop by that out adapter leads: a place and an adapter, True where it is the last, False where there is no path at all."""
    d = devices[place]
    a = numbered(d, out)
    if a is None:
        raise Refused(10, place, out)
    if a["kind"] != LANE:
        return True
    up, site = out == d["upstream"], (place, out)
    after = router_at(devices, d["domain"], upstream_route(d["route"], site) if up else downstream_route(d["route"], out, site))
    if after is None:
        return True
    number = downstream_adapter(devices[after], d) if up else upstream_adapter(found, devices, after)
    return (after, number) if numbered(devices[after], number) else False


def walk(found, devices, place, number, hop):
    """The hops of a walk, each a place, in adapter, in HopID, out adapter and out HopID; None for no path; 13 where it never ends."""
    hops, stood = [], set()
    while (place, number, hop) not in stood:
        stood.add((place, number, hop))
        entry = numbered(devices[place], number)["first"].get(hop)
        if entry is None:
            return hops or None
        hops.append((place, number, *entry))
        after = leads(found, devices, place, entry[1])
        if after is True:
            return hops
        if after is False:
            return None
        place, number, hop = *after, entry[2]
    raise Refused(13)


def walk_words(found, devices, place, number, start):
    """The answer for a HopID and a room."""
    try:
        hops = walk(found, devices, place, number, start % 65536)
    except Refused as r:
        return [r.word()]
    if hops is None:
        return [0]
    words = path_words(9, hops)
    return words if len(words) <= start >> 16 else [15 << 28 | 2 << 24 | len(words)]


def path_words(name, hops):
    words = [9 << 28 | name << 16 | len(hops)]
    for at, enters, hop, leaves, out_hop in hops:
        words += [10 << 28 | at << 16 | enters << 8 | leaves, hop << 16 | out_hop]
    return words


# ---- discovery (module 7) -----------------------------------------------------------------------

USB3, DISPLAY_PORT, PCIE, DMA = range(4)
PAIRS = {USB3_DOWN: (USB3, 0, 1), PCIE_DOWN: (PCIE, 5, 6)}  # a tunnel's type, and the names of its paths
VIDEO, AUX_TX, AUX_RX, DMA_TX, DMA_RX = 2, 3, 4, 7, 8


class Walks:
    """The walks of one survey, each made once."""

    def __init__(self, found, devices):
        self.found, self.devices, self.made = found, devices, {}

    def path(self, *start):
        if start not in self.made:
            self.made[start] = walk(self.found, self.devices, *start)
        return self.made[start]

    def back(self, hops, hop):
        """The path that starts where another leaves."""
        return self.path(hops[-1][0], hops[-1][3], hop)


def lane_of(found, devices, place):
    """Where an xdomain's paths come in: the parent's place, an adapter, and its HopIDs; None where the xdomain is passed over, False where a
    ring's tunnel is dropped."""
    parent = parent_from(found, devices, place)
    number = None if parent is None else downstream_adapter(devices[parent], devices[place])
    if number is None:
        return None
    a = numbered(devices[parent], number)
    least = min_hop(a["kind"]) if a else None
    most = None if least is None else max_hop(found, a, (parent, number))
    return False if most is None else (parent, number, range(least, most + 1))


def receive(walks, ring):
    """A ring's receive path: the first whose last hop leaves by it; None without one, False where the ring's tunnel is dropped."""
    for place, d in enumerate(walks.devices):
        lane = lane_of(walks.found, walks.devices, place) if d["kind"] == 2 else None
        if lane is False:
            return False
        for hop in lane[2] if lane else ():
            path = walks.path(*lane[:2], hop)
            if path and path[-1][4] == ring:
                return path
    return None


def ring_paths(walks, place, number, ring):
    """The paths of a ring's tunnel, each with its name; none where there is no tunnel."""
    tx = walks.path(place, number, ring)
    rx = receive(walks, ring)
    return [] if rx is False else [(name, p) for name, p in ((DMA_TX, tx), (DMA_RX, rx)) if p]


def pair_paths(walks, place, number, names):
    down = walks.path(place, number, 8)
    up = down and walks.back(down, 8)
    return up and [*zip(names, (down, up))]


def display_paths(walks, place, number):
    video = walks.path(place, number, 9)
    tx = video and walks.path(place, number, 8)
    rx = tx and walks.back(tx, 8)
    return rx and [(VIDEO, video), (AUX_TX, tx), (AUX_RX, rx)]


def discover(walks, place, a):
    """The tunnels from an adapter, each a type and paths; None for absent."""
    number, kind = a["number"], a["kind"]
    if not enabled(a):
        return None
    if kind in PAIRS:
        type_, *names = PAIRS[kind]
        paths = pair_paths(walks, place, number, names)
        return [(type_, paths)] if paths else None
    if kind == DP_IN:
        paths = display_paths(walks, place, number)
        return [(DISPLAY_PORT, paths)] if paths else None
    if kind != HOST:
        return None
    most = max_hop(walks.found, a, (place, number))
    if most is None:
        return None
    each = (ring_paths(walks, place, number, ring) for ring in range(min_hop(kind), most + 1))
    return [(DMA, paths) for paths in each if paths]


def closed(paths):
    """More than one path, and the last leaves by the device and adapter where the first entered."""
    first, last = paths[0][1][0], paths[-1][1][-1]
    return len(paths) > 1 and (last[0], last[3]) == (first[0], first[1])


def tunnel_words(type_, paths):
    return [8 << 28 | closed(paths) << 16 | len(paths) << 8 | type_] + [w for name, hops in paths for w in path_words(name, hops)]


def list_words(found, devices, place, a, room):
    """The answer for an output of that many words."""
    try:
        tunnels = discover(Walks(found, devices), place, a)
    except Refused as r:
        return [r.word()]
    if tunnels is None:
        return [0]
    words = [w for t in tunnels for w in tunnel_words(*t)]
    return [1 << 28 | len(words), *words] if len(words) <= room else [15 << 28 | 2 << 24 | len(words)]


# How many answers a refusal that comes before any of them stands for: one for each call.
CALLS = {0: 1, 1: 3, 2: 8, 3: 1, 4: 1, 5: 1, 6: 1, 7: 1}


def answers(description_words, survey_words, questions):
    """The words of questions and answers, as make-loads says."""
    try:
        found, devices = load(description_words, survey_words)
        refused = None
    except Refused as r:
        found, devices, refused = [], [], r.word()
    out = []
    for q in questions:
        out += q
        kind, place, number = q[0] >> 28, bits(q[0], 8, 27), q[0] & 255
        d = devices[place] if place < len(devices) else None
        a = numbered(d, number) if d else None
        if refused is not None:
            out += [refused] * CALLS[kind]
        elif kind == 0:
            out.append(1 << 28 | len(devices) << 14 | sum(len(a["entries"]) for d in devices for a in d["adapters"]))
        elif (kind == 1 and not d) or (kind > 1 and not a):
            out += [Refused(14).word()] * CALLS[kind]
        elif kind == 1:
            out += device_answers(found, devices, place)
        elif kind == 2:
            out += adapter_answers(found, d, a, place)
        elif kind == 3:
            out += path_word(a, q[1])
        elif kind == 4:
            out += cap_word(a, q[1])
        elif kind == 6:
            out += walk_words(found, devices, place, number, q[1])
        elif kind == 7:
            out += list_words(found, devices, place, a, q[1])
    return out
