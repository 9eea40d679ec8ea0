"""What document 01 says of each call of our static library, by reading.py and texts.py."""
import reading
import texts
from calls import Expected, none, value


def refused(r):
    """A refusal with its values."""
    n = r.number
    return Expected([n] if n > 12 else [n, r.place] if n < 5 else [n, r.place, r.adapter])


def tried(call):
    try:
        return call()
    except reading.Refused as r:
        return refused(r)


def some(v):
    return none() if v is None else value(v)


def written(words):
    return none() if words is None else Expected([0, 1, len(words)], words)


def short(expected, room):
    """2 last: the same with that much room."""
    return Expected([2, len(expected.words)]) if len(expected.words) > room else expected


# ---- numbers, lines, dumps and texts -----------------------------------------------------------------


def ascii_alone(text):
    if not text.isascii():
        raise reading.Refused(1, next(i for i, b in enumerate(text) if b > 127))


def parse_hex(text, bits):
    return some(texts.hex_number(text, bits) if bits in (16, 32, 64) else None)


def parse_line(line):
    ascii_alone(line)
    found = texts.record(line)
    return value(*found) if found else none()


def read_dump(text):
    ascii_alone(text)
    records = sorted((r for r in map(texts.record, text.split(b"\n")) if r), key=lambda r: r[0])
    return Expected([0, 1, len(records)], [w for o, relative, cap, vs, v in records for w in (5 << 28 | o, relative << 16 | cap, vs, v)], True)


# ---- descriptions ------------------------------------------------------------------------------------


def describe(found, space, kind, relative, cap, vs):
    d = reading.named(found, space, kind, {"relative": relative, "cap": cap, "vs": vs})
    return none() if d is None else value(d["place"])


def field(found, place, v, name):
    """6 alone; names match by the case of ASCII."""
    d = next((d for d in found if d["place"] == place), None)
    try:
        return value(reading.field(d, {"value": v}, name.lower().decode("latin-1"), (0, 0)))
    except reading.Refused:
        return Expected([6])


# ---- surveys -----------------------------------------------------------------------------------------


def adapter(a):
    least = reading.min_hop(a["kind"])
    return value(a["kind"], a["state"], int(a["lane0"]), int(a["lane1"]), 65536 if least is None else least, int(reading.enabled(a)))


def of_adapter(name, walks, place, a, numbers):
    site = place, numbers[0]
    if name == "adapter":
        return adapter(a)
    if name == "link_speed":
        return value(reading.link_speed(walks.found, a, site))
    if name == "max_hop":
        return some(reading.max_hop(walks.found, a, site))
    if name == "walk":
        hops = walks.path(*site, numbers[1])
        return written(None if hops is None else reading.path_words(9, hops))
    tunnels = reading.discover(walks, place, a)
    return written(None if tunnels is None else [w for t in tunnels for w in reading.tunnel_words(*t)])


def of_loaded(name, walks, place=0, numbers=()):
    """Of a survey that is accepted."""
    devices = walks.devices
    if name == "load":
        return value(len(devices), sum(len(a["entries"]) for d in devices for a in d["adapters"]))
    d = devices[place] if place < len(devices) else None
    a = reading.numbered(d, numbers[0]) if d and numbers else None
    if d is None or numbers and a is None:
        raise reading.Refused(14)
    return some(reading.parent_from(walks.found, devices, place)) if name == "parent" else of_adapter(name, walks, place, a, numbers)


# ---- any call ----------------------------------------------------------------------------------------


def told(case, descriptions, survey):
    """What a case comes to, by descriptions and a survey."""
    def found():
        return reading.descriptions(descriptions)
    by = {"parse_hex": lambda: parse_hex(case.text, *case.numbers), "parse_line": lambda: parse_line(case.text), "read_dump": lambda: read_dump(case.text),
          "check_descriptions": lambda: (found(), value())[1], "check_survey": lambda: (reading.survey(survey), value())[1],
          "describe": lambda: describe(found(), *case.numbers), "field": lambda: field(found(), case.place, *case.numbers, case.text),
          "text": lambda: written(texts.survey_words(case.text)), "our_descriptions": lambda: written(texts.DESCRIBED)}
    of_survey = lambda: of_loaded(case.name, reading.Walks(*reading.load(descriptions, survey)), case.place, case.numbers)
    expected = tried(by.get(case.name, of_survey))
    return short(expected, min(case.room, case.scratch) if case.name == "read_dump" else case.room)
