#!/usr/bin/env python3
"""Takes the measures of docs/PERFORMANCE.md, one after the other and all of them so many times, and prints each figure's median with the
least behind it.

usage: measure.py PROGRAM [ROUNDS [FOLDER]]

PROGRAM is `pcrf_checks` as the gate built it. Where `chrt -f` is allowed it runs at real-time priority, so that what runs beside it takes
none of its time, though of its memory's. What each run printed is kept in FOLDER, as MEASURE.ROUND, which plot_costs.py reads.
"""
import collections
import pathlib
import re
import shutil
import statistics
import subprocess
import sys
import tempfile

TOP = pathlib.Path(__file__).resolve().parent.parent.parent
INPUT, TABLES = TOP / "oracle/bench_input.py", TOP / "examples/telephony.toml"
SIZES = ["1000", "10000", "100000"]
MEASURES = [
    ["streams_called", *SIZES], ["streams", *SIZES], ["streams_prefixed", *SIZES], ["pushes", *SIZES], ["whole", *SIZES], ["states", *SIZES],
    ["letters", *SIZES], ["records", "1", "10", "100", "1000"], ["rx", "1", "8", "64"], ["renew", "30000"], ["living", "300"],
    ["book", "1", "2", "4"], ["whole_passed", "100000"],
]
# What a process keeps that does this, and what one keeps that does less of it: the bytes are the difference, over so many.
KEPT = [
    ("a session with a rule told, in a state", ["whole_state_kept", "101000"], ["whole_state_kept", "1000"], 100_000),
    ("a session with a rule told, in a site", ["whole_site_kept", "101000"], ["whole_site_kept", "1000"], 100_000),
    ("a session of an initial request alone, in a state", ["states_kept", "101000"], ["states_kept", "1000"], 100_000),
    ("an update, in a book", ["book_updates_kept", "101000"], ["book_updates_kept", "1000"], 100_000),
    ("an update, in a bare site", ["book_bare_kept", "101000"], ["book_bare_kept", "1000"], 100_000),
]
LINE = re.compile(r"(.*): \d+: ([\d.]+) (\w+)(.*)")


def first(words):
    """In front of a program's words where real-time priority is allowed."""
    chrt = shutil.which("chrt")
    allowed = chrt and subprocess.run([chrt, "-f", "1", "true"], capture_output=True).returncode == 0
    return [chrt, "-f", "1", *words] if allowed else words


def run(program, measure, is_timed=True):
    """What the program prints of a measure, and its greatest memory in bytes."""
    made = subprocess.run([INPUT, *measure], capture_output=True, check=True).stdout
    with tempfile.TemporaryFile() as input_file:
        input_file.write(made)
        input_file.seek(0)
        words = first([program, "measures", TABLES, *["timed"] * is_timed])
        ran = subprocess.run(["/usr/bin/time", "-f", "%M", *words], stdin=input_file, capture_output=True, text=True, check=True)
    return ran.stdout, int(ran.stderr.split()[-1]) * 1024


def main(program, rounds="5", folder=None):
    kept = pathlib.Path(folder or tempfile.mkdtemp())
    kept.mkdir(parents=True, exist_ok=True)
    figures, units = collections.defaultdict(list), {}
    for at in range(int(rounds)):
        for measure in MEASURES:
            said, _ = run(program, measure)
            (kept / f"{measure[0]}.{at}").write_text(said, encoding="utf-8")
            title = measure[0]
            for line in said.splitlines():
                if found := LINE.fullmatch(line):
                    name = f"{title} | {found[1]}"
                    figures[name].append(float(found[2]))
                    units[name] = found[3] + found[4]
                elif not line.endswith(": requests"):
                    title = f"{measure[0]} {line}"
    for name, values in figures.items():
        print(f"{name}: {statistics.median(values):g} ({min(values):g}) {units[name]}")
    for name, much, little, count in KEPT:
        bytes_kept = (run(program, much, is_timed=False)[1] - run(program, little, is_timed=False)[1]) / count
        print(f"kept by {name}: {bytes_kept:.0f} bytes")


if __name__ == "__main__":
    main(*sys.argv[1:])
