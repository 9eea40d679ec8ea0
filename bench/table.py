#!/usr/bin/env python3
"""Makes the tables of docs/PERFORMANCE.md from the rows that the driver writes.

usage: table.py ROUNDS CHECKED PLAIN

CHECKED and PLAIN are the rows of two runs: against the Rust with overflow checks, and without. What was run where is read off the machine.
"""
import os
import subprocess
import sys


def said(*command):
    """The first line that a command writes."""
    return subprocess.run(command, capture_output=True, text=True, check=True).stdout.split("\n")[0].strip()


def processor():
    for line in open("/proc/cpuinfo"):
        if line.startswith("model name"):
            return line.split(":", 1)[1].strip()
    return "an unknown processor"


def rows(name):
    """The rows by table; a row has its series, its size and its numbers and times by name."""
    tables = {}
    for line in open(name):
        table, series, size, *values = line.rstrip("\n").split("\t")
        row = {k: float(v) for k, v in (v.split("=") for v in values)}
        tables.setdefault(table, {})[series, int(size)] = row
    return tables


def number(x):
    """Three figures, or all those before the point."""
    if x >= 100:
        return f"{x:,.0f}"
    return f"{x:.1f}" if x >= 10 else f"{x:.2f}" if x >= 1 else f"{x:.3f}"


def whole(name):
    return lambda r: f"{int(r[name]):,}"


def micros(name):
    return lambda r: number(r[name])


def nanos(name):
    return lambda r: number(1000 * r[name])


def speed(name):
    return lambda r: number(r["bytes"] / r[name])


def ratio(of, to):
    return lambda r: of(r) / to(r)


def ours(r):
    return r["ours"]


def rust(r):
    return r["rust"]


ALL = ratio(ours, rust)
FROM_BYTES = ratio(ours, lambda r: r["rust_bytes"])
OF_TEXT = ratio(ours, rust)
LESS_FILE = ratio(ours, lambda r: r["rust"] - r["file"])
OF_C = ratio(lambda r: r["c"], ours)
WITH_READING = ratio(lambda r: r["ours"] + r["ours_reading"], rust)
REST = ratio(ours, lambda r: r["rust"] - r["rust_reading"])
LESS_DRIVER = ratio(ours, lambda r: r["rust"] - r["files"] - r["json"])
INSIDE = ratio(lambda r: r["ours_inside"], lambda r: r["rust_inside"])

# Of each table: its heading, what is to be known of it, what a row's series and size are called, its other columns, the ratio that is
# given for the Rust without overflow checks too, and the time whose growth is given.
TABLES = [
    ("lines", "Lines",
     "`register::parse_debugfs` and the Rust's `Register::parse_debugfs`, line by line. Ours takes bytes and looks at each of them, since one above 127 is refused; the Rust's takes a text, which has to be made of "
     "bytes: `Rust from bytes` has `str::from_utf8` before it, as its reader of files has, and `of a text` is without, which looks at one byte of a comment. The goals count the first, where both sides have the same input. "
     "Long lines have five tokens and then more, which are ignored.",
     "lines", "bytes a line",
     [("ours, MB/s", speed("ours")), ("Rust from bytes, MB/s", speed("rust_bytes")), ("of a text, MB/s", speed("rust"))],
     [("ours/Rust from bytes", FROM_BYTES), ("ours/Rust of a text", OF_TEXT)], "ours"),
    ("dumps", "Dumps",
     "`dump::read` on bytes in memory, with room for any dump so long, a word a byte, or exactly as much as the records need; and the Rust's `read` on a file with the same bytes, which is kept in memory ({shm}). "
     "`file` is the opening and reading of that file alone. C is a plain loop that cuts the bytes into lines and tokens (bench/timing/cut.c, `cc -O2`).",
     "dump", "bytes",
     [("records", whole("records")), ("ours, MB/s", speed("ours")), ("Rust, MB/s", speed("rust")), ("C, MB/s", speed("c")), ("file, MB/s", speed("file"))],
     [("ours/Rust", ALL), ("ours/(Rust less file)", LESS_FILE), ("speed of C's", OF_C)], "ours"),
    ("loading", "Loading",
     "`acceptance::accepted` on survey words under our descriptions, and the Rust's `read_registers`, `read_adapters` and `read_paths` of the same devices from dumps in files. "
     "A survey has the reading of dumps behind it: `reading` is `dump::read`, and the Rust's `read`, of all the dumps. So there are three ratios: ours to the Rust; ours and our reading to the Rust; ours to "
     "the rest of the Rust, without its reading. The Rust leaves speed and largest HopID until they are asked for; ours finds them in loading. `files` is the making of the Rust's files, which no ratio counts. Microseconds.",
     "survey", "words",
     [("entries", whole("entries")), ("ours", micros("ours")), ("our reading", micros("ours_reading")), ("Rust", micros("rust")), ("its reading", micros("rust_reading")), ("files", micros("making"))],
     [("ours/Rust", ALL), ("with reading/Rust", WITH_READING), ("ours/rest", REST)], "ours"),
    ("walks", "Walks",
     "`walk::tally` on a loaded survey, which answers a path's number of hops and where it ends, and the Rust's `discover_path`, which makes the list of hops. "
     "`entries` are those of the survey, which ours searches by halves; `there` are those of the first adapter, which the Rust looks through one after another. A call does so many walks that its loading is little beside them, and its time without walks is taken off; the same on both sides. Nanoseconds a walk.",
     "walk", "hops",
     [("entries", whole("entries")), ("there", whole("there")), ("ours", nanos("ours")), ("Rust", nanos("rust"))], [("ours/Rust", ALL)], "ours"),
    ("sparse", "Discovery: sparse DMA",
     "`discovery::discover_in` on a loaded survey, which writes the tunnels from an adapter as words, and the Rust's `Tunnel::discover`, which makes the list of tunnels. "
     "Here from a host interface, with a lane that has as many HopIDs as there are rings, and few or no entries. Microseconds.",
     "from", "rings",
     [("devices", whole("devices")), ("entries", whole("entries")), ("tunnels", whole("tunnels")), ("ours", micros("ours")), ("Rust", micros("rust"))], [("ours/Rust", ALL)], "ours"),
    ("dense", "Discovery: dense DMA", "The same with an entry at each HopID of the lane.",
     "from", "HopIDs",
     [("devices", whole("devices")), ("entries", whole("entries")), ("tunnels", whole("tunnels")), ("ours", micros("ours")), ("Rust", micros("rust"))], [("ours/Rust", ALL)], "ours"),
    ("deep", "Discovery: deep chains", "One tunnel from a host to a router so deep, by the lanes of those between. Nanoseconds.",
     "tunnel", "routers deep",
     [("devices", whole("devices")), ("words", whole("words")), ("ours", nanos("ours")), ("Rust", nanos("rust"))], [("ours/Rust", ALL)], "ours"),
    ("program", "The whole program, as a process",
     "`tunnels` and the oracle's mode `program`, each a process from its start to its end, on the same text. The oracle makes files of the text for the Rust, removes them, and parses the JSON: "
     "`files` and `JSON` are what that takes in the driver, and the second ratio is without them. It also parses an adapter's dumps three times, of which the Rust needs one. Microseconds.",
     "text", "bytes, at most",
     [("bytes", whole("bytes")), ("tunnels", whole("tunnels")), ("ours", micros("ours")), ("oracle", micros("rust")), ("files", micros("files")), ("JSON", micros("json"))],
     [("ours/oracle", ALL), ("ours/(oracle less files, JSON)", LESS_DRIVER)], "ours"),
    ("program", "The whole program, inside one process",
     "Ours from the text to the printed lines, without reading and writing; the Rust's own work on the same devices: loading from files, discovery from each adapter, printing. "
     "The files were made and the JSON was parsed before. Microseconds.",
     "text", "bytes, at most",
     [("bytes", whole("bytes")), ("tunnels", whole("tunnels")), ("ours", micros("ours_inside")), ("Rust", micros("rust_inside"))], [("ours/Rust", INSIDE)], "ours_inside"),
]


def shown(text, **names):
    for k, v in names.items():
        text = text.replace("{" + k + "}", v)
    return text


def table(what, checked, plain, shm):
    name, heading, about, series, size, columns, ratios, time = what
    first, of_first = ratios[0]
    heads = [series, size] + [c for c, _ in columns] + [c for c, _ in ratios] + [f"{first}, unchecked", "growth"]
    yield f"## {heading}"
    yield ""
    yield shown(about, shm=shm)
    yield ""
    yield "| " + " | ".join(heads) + " |"
    yield "|---|" + "---:|" * (len(heads) - 1)
    for (series, size), row in checked[name].items():
        half = checked[name].get((series, size // 2)) if size and size % 2 == 0 else None
        cells = [series, f"{size:,}" if size else ""]
        cells += [of(row) for _, of in columns] + [f"{of(row):.3f}" for _, of in ratios]
        cells += [f"{of_first(plain[name][series, size]):.3f}", f"{row[time] / half[time]:.2f}" if half else ""]
        yield "| " + " | ".join(cells) + " |"
    yield ""


def goal(text, parts):
    """A goal and its misses; each part is a heading, its rows, their ratio and whether a ratio misses."""
    misses, count = [], 0
    for heading, found, of, missed in parts:
        count += len(found)
        by_series = {}
        for (series, size), row in found.items():
            if missed(of(row)):
                by_series.setdefault(series, []).append(f"{size:,} ({of(row):.2f})" if size else f"({of(row):.2f})")
        misses += [(len(v), f"  - {heading}, {k}: {', '.join(v)}") for k, v in by_series.items()]
    total = sum(n for n, _ in misses)
    yield f"- {text}: " + (f"{total} of {count} ratios miss it." if total else f"all {count} ratios meet it.")
    yield from (line for _, line in misses)


def goals(checked, plain):
    def slower(tables, ratios_of):
        for name, heading, _, _, _, _, ratios, _ in TABLES:
            for column, of in ratios_of(ratios):
                yield f"{heading}, {column}", tables[name], of, lambda x: x > 1
    yield "## Goals"
    yield ""
    yield "Behind each row that misses one stands its ratio."
    yield ""
    yield from goal("No row slower than the Rust (lines from bytes)", slower(checked, lambda ratios: [r for r in ratios if r[1] not in (OF_C, OF_TEXT)]))
    yield from goal("The same against the Rust without overflow checks (the first ratio alone)", slower(plain, lambda ratios: ratios[:1]))
    yield from goal("Ten times faster on loading and on sparse DMA (at most 0.1)",
                    [(h, checked[n], ALL, lambda x: x > 0.1) for n, h in (("loading", "Loading"), ("sparse", "Sparse DMA"))])
    yield from goal("Dumps read at least at half the speed of a plain C loop (at least 0.5)", [("Dumps", checked["dumps"], OF_C, lambda x: x < 0.5)])


def page(rounds, checked, plain):
    shm = os.environ.get("BENCH_DUMPS", "")
    once = [(series, row["time"]) for (series, _), row in checked["once"].items()]
    yield "# How long it takes"
    yield ""
    yield f"Written by `bench/run {rounds} --write` on {said('date', '+%Y-%m-%d')}, at commit {os.environ.get('BENCH_COMMIT', '')}; not to be edited by hand. bench/README.md says what the inputs are."
    yield ""
    yield f"- Machine: {os.cpu_count()} processors, {processor()}; {said('uname', '-sr')}; load {open('/proc/loadavg').read().split()[0]} when it was written."
    yield f"- Ours: {said('rt', 'version')}; static libraries and the program as `rt` builds them."
    yield f"- The Rust: {said('rustc', '--version')}, built for release as oracle/build.sh does, with overflow checks. The column `unchecked` is another run of everything, against the Rust built without them."
    yield f"- C: {said('cc', '--version')}."
    yield (f"- Each row: both sides are asked first and must agree; then they are called in turns in one process, {rounds} rounds (fewer where a row would take longer than 3 s, at least 3), in batches of 1 ms. "
           "The best batch of each counts. 1 MB is 1,000,000 bytes. `growth` is ours, to ours at half the size.")
    yield f"- Dumps for the Rust are files in {shm}. Making them, and parsing the JSON, is in none of the Rust's times but those of the oracle's process."
    yield "- Once each: " + "; ".join(f"{series} {number(t)} us" for series, t in once) + "."
    yield ""
    for what in TABLES:
        yield from table(what, checked, plain, shm)
    yield from goals(checked, plain)


def main():
    rounds, checked, plain = sys.argv[1], rows(sys.argv[2]), rows(sys.argv[3])
    print("\n".join(page(rounds, checked, plain)))


main()
