#!/usr/bin/env python3
"""The speed of the program that plays requests, against a straightforward C program (tests/play_baseline.c).

    play_speed.py [MEGABYTES] [RUNS]     50 megabytes and 5 runs, if nothing else is said

Needs gcc and a built program (./play, or rt run in crates/play). The requests are random, in small arenas (play_cases.py --random), one script of a
megabyte again and again. The two programs run in turn, on one machine, in one run; what they write must be the same. The times
are the medians of the processor's time in the program.
"""

import os
import statistics
import subprocess
import sys
import tempfile

TOP = os.path.dirname(os.path.dirname(os.path.abspath(__file__)))


def seconds(program, source, target):
    """The processor's time in the program, in seconds."""
    with open(source, "rb") as given, open(target, "wb") as taken:
        process = subprocess.Popen([program], stdin=given, stdout=taken)
        _, status, usage = os.wait4(process.pid, 0)
    if status != 0:
        raise SystemExit(f"{program} ended with status {status}")
    return usage.ru_utime + usage.ru_stime


def main(arguments):
    megabytes = int(arguments[0]) if arguments else 50
    runs = int(arguments[1]) if len(arguments) > 1 else 5
    with tempfile.TemporaryDirectory() as folder:
        baseline, source = os.path.join(folder, "baseline"), os.path.join(folder, "requests")
        code = os.path.join(TOP, "tests", "play_baseline.c")
        subprocess.run(["gcc", "-O3", "-Wall", "-Wextra", "-o", baseline, code], check=True)
        cases = os.path.join(TOP, "tests", "play_cases.py")
        script = subprocess.run([sys.executable, cases, "--random", "1000000", "2"], stdout=subprocess.PIPE, check=True).stdout
        with open(source, "wb") as file:
            for _ in range(megabytes):
                file.write(script)
        programs = {"C": baseline, "play": os.path.join(TOP, "crates", "play", "out", "play")}
        times = {name: [] for name in programs}
        for _ in range(runs):
            for name, program in programs.items():
                times[name].append(seconds(program, source, os.path.join(folder, name)))
        with open(os.path.join(folder, "C"), "rb") as a, open(os.path.join(folder, "play"), "rb") as b:
            if a.read() != b.read():
                print("the two programs wrote different answers")
                return 1
        middle = {name: statistics.median(t) for name, t in times.items()}
        size = os.path.getsize(source)
        for name, t in middle.items():
            rate = f"{t:.2f} s for {size / 1e6:.0f} MB, {size / 1e6 / t:.0f} MB/s"
            print(f"{name}: {rate}; {runs} runs, {min(times[name]):.2f} to {max(times[name]):.2f} s")
        print(f"time of play against C: {middle['play'] / middle['C']:.2f}")
    return 0


if __name__ == "__main__":
    sys.exit(main(sys.argv[1:]))
