#!/usr/bin/env python3
"""The measurements of two archives side by side, as the tables of docs/PERFORMANCE.md.

    python3 host/bench/compare.py BEFORE AFTER [--before-host DIR] [--runs N] [--quick] [--no-times] [--no-counts]

BEFORE and AFTER are folders with a liblimbegoru.a. A bench is built with each, and they run in turn, three times each where
--runs does not say otherwise: the times are medians of the runs, the ratios medians of each run's own ratios. Then valgrind
counts instructions, of the loops and a call, which do not vary. Where the interface of BEFORE is another one, --before-host
is the folder host of its tree: its bench is built from there, and the baselines' columns are those of AFTER.
"""

import argparse
import os
import re
import statistics
import subprocess
import sys
from concurrent.futures import ThreadPoolExecutor

HOST = os.path.dirname(os.path.dirname(os.path.abspath(__file__)))
TARGET = os.path.join(os.path.dirname(HOST), "target", "compare")

# What the instructions a call are counted of: land, filling, workload; and the numbers of ranges.
COUNTED = [
    ("list", "roomy", "1"), ("list", "roomy", "2"), ("list", "roomy", "walk"), ("list", "roomy", "1-at"),
    ("block", "roomy", "1"), ("block", "roomy", "2"), ("block", "roomy", "walk"), ("block", "roomy", "largest"),
    ("pair", "roomy", "1"), ("pair", "roomy", "2"), ("pair", "short", "1"), ("pair", "short", "2"),
    ("pair", "short", "last"), ("pair", "short", "largest"), ("pair", "halved", "flush"),
]
COUNTED_RANGES = [4, 16, 256, 4096]
PREFIXES = {"proved": "lg_", "c": "c_", "best": "b_"}


def build(name, folder, host=HOST):
    """The program linked with the archive in a folder."""
    target = os.path.join(TARGET, name)
    env = {**os.environ, "LIMBEGORU_ARCHIVE_DIR": os.path.abspath(folder), "CARGO_TARGET_DIR": target}
    subprocess.run(["cargo", "build", "--offline", "--release", "-q", "-p", "bench"], cwd=host, env=env, check=True)
    return os.path.join(target, "release", "bench")


def tables(text):
    """The tables of a run: for each its columns, and its rows by the fields that name them."""
    found = []
    for block in re.findall(r"(?:^\|.*\n)+", text, re.MULTILINE):
        rows = [[field.strip() for field in line.strip("|\n").split("|")] for line in block.splitlines()]
        columns, rows = rows[0], rows[2:]
        found.append((columns, {tuple(row[:3]): row[3:] for row in rows}))
    return found


def middle(runs, table, key, column):
    """The median of a field over the runs, or its text where it is no number."""
    columns = runs[0][table][0]
    fields = [run[table][1][key][columns.index(column) - 3] for run in runs]
    try:
        return statistics.median(float(field) for field in fields)
    except ValueError:
        return None


def shown(number, digits):
    return "-" if number is None else f"{number:,.{digits}f}"


def line(fields):
    print("| " + " | ".join(fields) + " |")


def head(fields):
    line(fields)
    print("|" + "---|" * len(fields))


def print_calls(before, after, baselines, table, wanted):
    head(["land", "workload", "ranges", "before", "after", "C", "best C", "Rust", "before/C", "after/C",
          "before/best C", "after/best C"])
    for key in before[0][table][1]:
        if not wanted(key[0]):
            continue
        fields = [key[0], key[1], f"{int(key[2]):,}"]
        fields += [shown(middle(runs, table, key, "proved"), 1) for runs in (before, after)]
        fields += [shown(middle(baselines, table, key, column), 1) for column in ("C", "best C", "Rust")]
        fields += [shown(middle(runs, table, key, ratio), 2) for ratio in ("proved/C", "proved/best C")
                   for runs in (before, after)]
        line(fields)
    print()


def print_tails(before, after, baselines, table):
    head(["ranges", "capacity", "words behind", "before", "after", "C", "best C", "before/best C", "after/best C",
          "before, a word", "after, a word", "best C, a word"])
    for key in before[0][table][1]:
        fields = [f"{int(field):,}" for field in key]
        fields += [shown(middle(runs, table, key, "proved"), 1) for runs in (before, after)]
        fields += [shown(middle(baselines, table, key, column), 1) for column in ("C", "best C")]
        fields += [shown(middle(runs, table, key, "proved/best C"), 2) for runs in (before, after)]
        fields += [shown(middle(runs, table, key, "proved, a word"), 3) for runs in (before, after)]
        fields.append(shown(middle(baselines, table, key, "best C, a word"), 3))
        line(fields)
    print()


def times(programs, runs, quick, same_host):
    read = {name: [] for name in programs}
    for number in range(runs):
        for name in sorted(programs, reverse=number % 2 == 0):
            command = [programs[name]] + (["--quick"] if quick else [])
            ran = subprocess.run(command, capture_output=True, text=True, check=True)
            read[name].append(tables(ran.stdout))
    before, after = read["before"], read["after"]
    baselines = before + after if same_host else after
    print(f"Medians of {runs} runs each.\n\nThe lands:\n")
    print_calls(before, after, baselines, 0, lambda land: not land.startswith("pair"))
    print("The pair:\n")
    print_calls(before, after, baselines, 0, lambda land: land.startswith("pair"))
    print("Further calls:\n")
    print_calls(before, after, baselines, 1, lambda land: True)
    print("Node space behind the ranges:\n")
    print_tails(before, after, baselines, 2)


def loops(programs):
    """The instructions of the loops, before and after."""
    read = []
    for name in ("before", "after"):
        ran = subprocess.run([programs[name], "--instructions"], capture_output=True, text=True)
        read.append(re.findall(r"^(.*): ([\d.]+) instructions a (\w+), .* ([\d.]+)$", ran.stdout, re.MULTILINE))
    head(["loop", "before", "after", "limit"])
    for was, now in zip(*read):
        line([f"{was[0]}: instructions a {was[2]}", was[1], now[1], was[3]])
    print()


def counted(program, implementation, land, filling, workload, ranges):
    """The instructions of a call."""
    calls = 20000 // (ranges + 16)
    # A call on a pointer may make the call by value, which would end the counting.
    counting = PREFIXES[implementation] + ("list_*_at" if workload.endswith("-at") else "*")
    command = ["valgrind", "--tool=callgrind", "--callgrind-out-file=/dev/null", f"--toggle-collect={counting}", program,
               "--impl", implementation, "--only", land, "--filling", filling, "--workload", workload,
               "--ranges", str(ranges), "--calls", str(calls)]
    ran = subprocess.run(command, capture_output=True, text=True, check=True)
    played = int(re.search(r"^(\d+) calls played", ran.stdout, re.MULTILINE).group(1))
    return int(re.search(r"Collected : (\d+)", ran.stderr).group(1)) / played


def counts(programs):
    """The instructions a call: before, after, C, best C."""
    ways = [("before", "proved"), ("after", "proved"), ("after", "c"), ("after", "best")]
    with ThreadPoolExecutor(os.cpu_count()) as pool:
        rows = [(*case, [[pool.submit(counted, programs[name], way, *case, ranges) for name, way in ways]
                         for ranges in COUNTED_RANGES]) for case in COUNTED]
        head(["land", "workload"] + [f"{ranges:,}" for ranges in COUNTED_RANGES])
        for land, filling, workload, cells in rows:
            name = land + (", short" if filling == "short" else "")
            line([name, workload] + [" / ".join(f"{count.result():,.0f}" for count in cell) for cell in cells])
    print()


def main():
    parser = argparse.ArgumentParser()
    parser.add_argument("before")
    parser.add_argument("after")
    parser.add_argument("--before-host", default=HOST)
    parser.add_argument("--runs", type=int, default=3)
    parser.add_argument("--quick", action="store_true")
    parser.add_argument("--no-times", action="store_true")
    parser.add_argument("--no-counts", action="store_true")
    options = parser.parse_args()
    before_host = os.path.abspath(options.before_host)
    programs = {"before": build("before", options.before, before_host), "after": build("after", options.after)}
    if not options.no_times:
        times(programs, options.runs, options.quick, before_host == HOST)
    if not options.no_counts:
        print("Instructions:\n")
        loops(programs)
        print("Instructions a call, before / after / C / best C:\n")
        counts(programs)
    return 0


if __name__ == "__main__":
    sys.exit(main())
