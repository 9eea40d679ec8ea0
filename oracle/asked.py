"""The Rust, asked about surveys: what make-loads, make-walks and make-discoveries share. Questions and answers are words, as they say."""
import json
import os
import subprocess
import sys
import tempfile

import reading
from described import set_words
from stored import HERE, row


def oracle(sets, asked):
    """The Rust's answers to (survey, questions) by those descriptions."""
    with tempfile.NamedTemporaryFile("w", suffix=".json", delete=False) as f:
        json.dump(sets, f)
    lines = "".join(" ".join(f"{w:08x}" for w in [len(t), *t, *(w for q in qs for w in q)]) + "\n" for t, qs in asked)
    run = subprocess.run([HERE / "target" / "release" / "oracle", "loads"], input=lines, capture_output=True, text=True, check=False,
                         env={**os.environ, "ORACLE_REGISTERS": f.name})
    os.unlink(f.name)
    rows = [[int(w, 16) for w in line.split()] for line in run.stdout.split("\n")[:-1]]
    if run.returncode != 0 or len(rows) != len(asked):
        sys.exit(f"{sys.argv[0]}: oracle loads: {run.stderr.strip() or 'too few answers'}")
    return rows


def agreed(sets, asked):
    """The same, each answer compared with document 01."""
    words = set_words(sets)
    for (t, qs), said in zip(asked, oracle(sets, asked)):
        read = reading.answers(words, t, qs)
        if said != read:
            sys.exit(f"{sys.argv[0]}: the Rust and document 01 differ\ndescriptions {json.dumps(sets)}\nsurvey {row(*t)}\n"
                     f"the Rust {row(*said)}\ndocument 01 {row(*read)}")
        yield said
