"""Descriptions: ours and others made from them, as the Rust has them, in JSON, and as document 01's words."""
import copy
import json

from stored import HERE

OURS = json.loads((HERE / "registers.json").read_text())
SPACES = ["router", "adapter", "path"]
TYPES = ["Unknown", "Inactive", "Lane", "Host Interface", "DisplayPort IN", "DisplayPort OUT", "PCIe Down", "PCIe Up", "USB 3 Down", "USB 3 Up",
         "USB 3 Gen T Down", "USB 3 Gen T Up"]


def name_words(s):
    b = s.encode("ascii")
    b += bytes(-len(b) % 4)
    return [int.from_bytes(b[i:i + 4], "little") for i in range(0, len(b), 4)]


def register_words(space, d):
    kinds = d.get("adapter_type")
    head = 1 << 28 | space << 26 | ("cap_id" in d) << 25 | ("vs_cap_id" in d) << 24 | len(d["name"]) << 16 | d["offset"]
    ids = d.get("cap_id", 0) << 16 | d.get("vs_cap_id", 0)
    types = 0 if kinds is None else 1 << 12 | sum(1 << TYPES.index(k) for k in set(kinds))
    return [head, ids, types, *name_words(d["name"])]


def field_words(f):
    short = f.get("short_name", "")
    head = 2 << 28 | f["start_bit"] << 23 | f["end_bit"] << 18 | len(f["name"]) << 8 | len(short)
    return [head, *name_words(f["name"]), *name_words(short)]


def groups(space, d):
    """The groups of a description, each a list of words."""
    return [register_words(space, d)] + [field_words(f) for f in d.get("bitfields", [])]


def set_words(sets):
    """The words of a whole set: router, adapter, path space, each in the JSON's order."""
    return [w for i, s in enumerate(SPACES) for d in sets[s] for g in groups(i, d) for w in g]


# ---- other descriptions ------------------------------------------------------------------------


def register(sets, name):
    return next(d for s in sets.values() for d in s if d["name"] == name)


def fields(sets, name):
    return register(sets, name)["bitfields"]


def bit(name, start, end=None, **more):
    return {"name": name, "start_bit": start, "end_bit": start if end is None else end, **more}


def without(name, field):
    """Our descriptions without a field."""
    sets = copy.deepcopy(OURS)
    held = fields(sets, name)
    held.remove(next(f for f in held if f["name"] == field))
    return sets


def spread(name, field, start, end):
    """Our descriptions with a field at other bits."""
    sets = copy.deepcopy(OURS)
    f = next(f for f in fields(sets, name) if f["name"] == field)
    f["start_bit"], f["end_bit"] = start, end
    return sets


def dropped(name):
    sets = copy.deepcopy(OURS)
    for s in sets.values():
        s[:] = [d for d in s if d["name"] != name]
    return sets


def added(space, *registers):
    sets = copy.deepcopy(OURS)
    sets[space] += registers
    return sets


GEN_T = ["USB 3 Gen T Down", "USB 3 Gen T Up"]


def gen_t(count=(0, 7), ports=4, flags=(("PE", 31), ("V", 30)), kinds=True):
    """Our descriptions with the Gen T registers: the count, and that many ports' second registers."""
    typed = {"adapter_type": GEN_T} if kinds else {}
    found = [{"name": "ADP_USB3_GT_CS_0", "offset": 0, "cap_id": 4, "adapter_type": GEN_T, "bitfields": [bit("Gen T Port Count", *count)]}]
    found += [{"name": f"ADP_USB3_GT_PCS_{p}", "offset": 3 + 2 * p, "cap_id": 4, **typed, "bitfields": [bit(n, *b) for n, *b in flags]}
              for p in range(ports)]
    return added("adapter", *found)


def cased(change):
    """Our descriptions with every name changed."""
    sets = copy.deepcopy(OURS)
    for s in sets.values():
        for d in s:
            d["name"] = change(d["name"])
            for f in d["bitfields"]:
                f["name"] = change(f["name"])
    return sets


def shortened():
    """The wanted names as short names."""
    sets = gen_t()
    for s in sets.values():
        for d in s:
            for i, f in enumerate(d["bitfields"]):
                f["short_name"], f["name"] = f["name"], f"Field {i}"
    return sets


def hidden():
    """Fields that an earlier one hides, by its name or its short name."""
    sets = copy.deepcopy(OURS)
    fields(sets, "PATH_CS_0").insert(0, bit("Hop", 5, 12, short_name="output hopid"))
    fields(sets, "LANE_ADP_CS_1").insert(0, bit("ADAPTER STATE", 0, 2))
    fields(sets, "ADP_USB3_GX_CS_0").insert(0, bit("valid", 3, short_name="v"))
    return sets


def bare(*names):
    """Registers that have a name and no fields."""
    sets = copy.deepcopy(OURS)
    for n in names:
        register(sets, n).pop("bitfields")
    return sets


def twice(name):
    """A description twice, so that it names nothing."""
    sets = copy.deepcopy(OURS)
    for s in sets.values():
        s += [copy.deepcopy(d) for d in s if d["name"] == name]
    return sets


def wide():
    """Fields wider than what the Rust keeps of them."""
    sets = gen_t(count=(0, 17))
    for name, field, start, end in (("ROUTER_CS_1", "Upstream Adapter", 0, 11), ("ROUTER_CS_1", "Max Adapter", 12, 31),
                                    ("ADP_CS_5", "Max Input HopID", 0, 17), ("PATH_CS_0", "Output HopID", 0, 17),
                                    ("PATH_CS_0", "Output Adapter", 18, 30)):
        f = next(f for f in fields(sets, name) if f["name"] == field)
        f["start_bit"], f["end_bit"] = start, end
    return sets


def vendored():
    """Names by vs id: LANE_ADP_CS_1 and PATH_CS_0 want one, and another candidate has another."""
    sets = copy.deepcopy(OURS)
    register(sets, "LANE_ADP_CS_1")["vs_cap_id"] = 1
    sets["adapter"].append({"name": "LANE_ADP_CS_1", "offset": 1, "cap_id": 1, "vs_cap_id": 2, "bitfields": [bit("Adapter State", 0, 3)]})
    register(sets, "PATH_CS_0").update({"cap_id": 1, "vs_cap_id": 1})
    sets["path"].append({"name": "PATH_CS_0", "offset": 0, "adapter_type": ["Lane", "Host Interface"],
                         "bitfields": [bit("Valid", 31), bit("Output Adapter", 0, 7), bit("Output HopID", 8, 15)]})
    return sets


def one_more(name, **changes):
    """Another register description of that name beside ours."""
    sets = copy.deepcopy(OURS)
    for s in sets.values():
        s += [{**copy.deepcopy(d), **changes} for d in s if d["name"] == name]
    return sets


def changed(name, **changes):
    """Our descriptions with one register's changed."""
    sets = copy.deepcopy(OURS)
    register(sets, name).update(changes)
    return sets


DP, PCIE, USB3 = [0x0E0101, 0x0E0102], [0x100101, 0x100102], [0x200101, 0x200102]
FAVOURED = {"ADP_DP_CS_0": DP, "ADP_PCIE_CS_0": PCIE, "ADP_USB3_GX_CS_0": USB3, "LANE_ADP_CS_1": [1], "ADP_USB3_GT_CS_0": [0x210101, 0x210102]}


def other_sets():
    """Sets, each with the register that its surveys should most often have."""
    for s in OURS.values():
        for d in s:
            for f in d["bitfields"]:
                yield without(d["name"], f["name"]), d["name"]
    for name, field, start, end in (("PATH_CS_0", "Valid", 30, 31), ("ADP_PCIE_CS_0", "PE", 30, 31), ("ADP_DP_CS_0", "AE", 29, 30),
                                    ("ADP_DP_CS_0", "VE", 30, 31), ("ADP_USB3_GX_CS_0", "V", 29, 30), ("ADP_USB3_GX_CS_0", "PE", 30, 31),
                                    ("LANE_ADP_CS_1", "Adapter State", 0, 31)):
        yield spread(name, field, start, end), name
    for name in ("ROUTER_CS_1", "PATH_CS_0", "LANE_ADP_CS_1"):
        yield dropped(name), name
    for name in ("ROUTER_CS_1", "PATH_CS_0", "ADP_CS_5"):
        yield twice(name), name
    yield {"router": [], "adapter": [], "path": []}, ""
    for sets in (gen_t(), gen_t(), gen_t(kinds=False), gen_t(ports=1), gen_t(flags=(("PE", 31),)), gen_t(flags=(("V", 30),)),
                 gen_t(flags=(("PE", 31), ("V", 29, 30))), gen_t(count=(0, 31)), wide(), wide(), shortened()):
        yield sets, "ADP_USB3_GT_CS_0"
    for sets, name in ((wide(), "PATH_CS_0"), (wide(), "ADP_CS_5"), (vendored(), "LANE_ADP_CS_1"), (hidden(), "LANE_ADP_CS_1"),
                       (hidden(), "ADP_USB3_GX_CS_0"), (bare("ADP_CS_5", "ADP_PCIE_CS_0"), "ADP_PCIE_CS_0"), (bare("ROUTER_CS_1"), ""),
                       (cased(str.upper), ""), (cased(str.lower), ""), (cased(str.swapcase), "")):
        yield sets, name
    yield one_more("ADP_DP_CS_0", adapter_type=["PCIe Down", "Lane", "DisplayPort OUT"]), "ADP_DP_CS_0"
    yield one_more("PATH_CS_0", adapter_type=["Lane"]), "LANE_ADP_CS_1"
    yield one_more("ADP_CS_5", adapter_type=[]), ""
    yield one_more("ROUTER_CS_1", cap_id=0), ""
    yield one_more("ROUTER_CS_1", vs_cap_id=1), ""
    yield changed("ROUTER_CS_1", adapter_type=["Lane"]), ""
    yield changed("ADP_CS_5", adapter_type=["Lane", "Host Interface", "PCIe Up"]), "LANE_ADP_CS_1"
    yield changed("PATH_CS_0", vs_cap_id=1), ""
