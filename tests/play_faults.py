#!/usr/bin/env python3
"""Tests what ./play does where it cannot read its input or write its answers: python3 tests/play_faults.py, after ./play.

Each case states the status, what is on standard output and what is on standard error. Needs gcc, for calls that fail
(tests/play_faults.c). ./play asks rt whether the program is proved; here a stand-in answers yes, but for one case.

The last line is 'N passed, M failed'; the exit status is 0 exactly if M is 0.
"""

import errno
import os
import signal
import subprocess
import sys
import tempfile
import threading
import time

TOP = os.path.dirname(os.path.dirname(os.path.abspath(__file__)))
PLAY = os.path.join(TOP, "play")
PROGRAM = os.path.join(TOP, "crates", "play", "out", "play")


def contents(*path):
    with open(os.path.join(TOP, *path), "rb") as file:
        return file.read()


LONG, LONG_ANSWERS = contents("crates", "play", "stdin"), contents("crates", "play", "stdout")
SAMPLE = contents("tests", "sample.txt")
ANSWERS = b"0\n0 4096 4112\n0 4120 4128\n0 4096 4112 4096 4112\n1 0 0\n0 2 24\n4096 4112\n4120 4128\n"


def missing(what, error=None):
    """The line on standard error; an error is a number of the system's, or words."""
    text = what if error is None else f"{what}: {os.strerror(error) if isinstance(error, int) else error}"
    return f"play: answers are missing: {text}\n".encode()


def unread(error):
    return missing("reading standard input", error)


def unwritten(error):
    return missing("writing standard output", error)


# A name, a command line for the shell in which $play, $program and $sample stand for their paths, and what it must give.
COMMANDS = [
    ("a file", "$play $sample", (0, ANSWERS, b"")),
    ("standard input", "$play <$sample", (0, ANSWERS, b"")),
    ("no input", "$play </dev/null", (0, b"", b"")),
    ("no input, closed output", "$play </dev/null >&-", (0, b"", b"")),
    ("a full disk", "$play $sample >/dev/full", (1, b"", unwritten(errno.ENOSPC))),
    ("a full disk and nowhere to say it", "$play $sample >/dev/full 2>&-", (1, b"", b"")),
    ("closed output", "$play $sample >&-", (1, b"", unwritten(errno.EBADF))),
    ("closed input", "$play <&-", (1, b"", unread(errno.EBADF))),
    ("closed input and output", "$play <&- >&-", (1, b"", unread(errno.EBADF))),
    ("input open for writing only", "$play 0>/dev/null", (1, b"", unread(errno.EBADF))),
    ("a directory", "$play </", (1, b"", unread(errno.EISDIR))),
    ("a file that is not there", "$play /none/such", (1, b"", b"play: /none/such cannot be read\n")),
    ("two files", "$play $sample $sample", (2, b"", b"usage: ./play [FILE]\n")),
    ("the program alone leaves descriptor 3", "$program <$sample 3>&1 >/dev/null", (0, b"", b"")),
    ("the program with a file's name leaves it too", "$program 3.txt <$sample 3>&1 >/dev/null", (0, b"", b"")),
    ("the program asked for a sign", "$program 3 <$sample 3>&1 >/dev/null", (0, b"3", b"")),
    ("the program alone on a full disk", "$program <$sample >/dev/full", (1, b"", unwritten(errno.ENOSPC))),
    ("the program alone with closed input", "$program <&-", (1, b"", unread(errno.EBADF))),
    ("a sign that is not taken", "$play $sample 3>&-; $program 3 </dev/null 3>/dev/full",
     (1, ANSWERS, f"play: saying that all answers were written: {os.strerror(errno.ENOSPC)}\n".encode())),
]

INTERRUPTED, WOULD_BLOCK, FAULT = -errno.EINTR, -errno.EAGAIN, -errno.EIO

# A name, the calls with a fault and their numbers (tests/play_faults.c), and what the sample must give.
FAULTS = [
    ("reads interrupted", "READ", [INTERRUPTED, 3, INTERRUPTED, INTERRUPTED, 20, INTERRUPTED], (0, ANSWERS, b"")),
    ("reads that would block", "READ", [WOULD_BLOCK, 30, WOULD_BLOCK, INTERRUPTED, 1, WOULD_BLOCK], (0, ANSWERS, b"")),
    ("a first read that fails", "READ", [FAULT], (1, b"", unread(errno.EIO))),
    ("a later read that fails", "READ", [INTERRUPTED, 18, FAULT], (1, b"0\n", unread(errno.EIO))),
    ("a read that fails behind the last line", "READ", [len(SAMPLE), FAULT], (1, ANSWERS, unread(errno.EIO))),
    ("writes interrupted", "WRITE", [INTERRUPTED, 1, INTERRUPTED, INTERRUPTED, 40], (0, ANSWERS, b"")),
    ("writes that would block", "WRITE", [WOULD_BLOCK, 7, WOULD_BLOCK, INTERRUPTED, 1, WOULD_BLOCK], (0, ANSWERS, b"")),
    ("a first write that fails", "WRITE", [FAULT], (1, b"", unwritten(errno.EIO))),
    ("a later write that fails", "WRITE", [10, INTERRUPTED, 5, FAULT], (1, ANSWERS[:15], unwritten(errno.EIO))),
    ("a write that takes nothing", "WRITE", [10, WOULD_BLOCK, 0], (1, ANSWERS[:10], unwritten("write zero"))),
]

# The same, where standard output is a file: it is written out at the end.
FILE_FAULTS = [
    ("a file", "SYNC", [], (0, ANSWERS, b"")),
    ("a file whose writing out is interrupted", "SYNC", [INTERRUPTED, INTERRUPTED], (0, ANSWERS, b"")),
    ("a file that cannot be written out", "SYNC", [-errno.EINVAL], (0, ANSWERS, b"")),
    ("a file whose writing out fails", "SYNC", [FAULT], (1, ANSWERS, missing("closing standard output", errno.EIO))),
    ("a file on a full disk", "SYNC", [-errno.ENOSPC], (1, ANSWERS, missing("closing standard output", errno.ENOSPC))),
]


def result(process, given=None):
    out, err = process.communicate(given)
    return process.returncode, out or b"", err or b""


def start(**further):
    return subprocess.Popen([PLAY], **{"stdin": subprocess.PIPE, "stdout": subprocess.PIPE, "stderr": subprocess.PIPE, **further})


def of_command(line):
    names = {"play": PLAY, "program": PROGRAM, "sample": os.path.join(TOP, "tests", "sample.txt")}
    environment = {**os.environ, **{name: path for name, path in names.items()}}
    quoted = line.replace("$play", '"$play"').replace("$program", '"$program"').replace("$sample", '"$sample"')
    return result(subprocess.Popen(["sh", "-c", quoted], env=environment, stdout=subprocess.PIPE, stderr=subprocess.PIPE))


def of_fault(shim, call, numbers, **further):
    environment = {**os.environ, "LD_PRELOAD": shim, f"FAULTS_{call}": ",".join(map(str, numbers))}
    return result(start(env=environment, **further), SAMPLE)


def of_file_fault(shim, call, numbers):
    with tempfile.TemporaryFile() as target:
        status, _, err = of_fault(shim, call, numbers, stdout=target)
        target.seek(0)
        return status, target.read(), err


def slow_reader():
    """A pipe that does not block, and is read slowly."""
    taken, given = os.pipe()
    os.set_blocking(given, False)
    with tempfile.TemporaryFile() as source:
        source.write(LONG)
        source.seek(0)
        process = start(stdin=source, stdout=given)
    os.close(given)
    answers = b""
    while True:
        time.sleep(0.2 if not answers else 0.001)
        piece = os.read(taken, 4096)
        if not piece:
            break
        answers += piece
    os.close(taken)
    status, _, err = result(process)
    return status, answers, err


def slow_writer():
    """A pipe that does not block, and is filled slowly."""
    taken, given = os.pipe()
    os.set_blocking(taken, False)
    process = start(stdin=taken)
    os.close(taken)

    def fill():
        for at in range(0, len(SAMPLE), 25):
            time.sleep(0.05)
            os.write(given, SAMPLE[at:at + 25])
        os.close(given)

    writer = threading.Thread(target=fill)
    writer.start()
    out = result(process)
    writer.join()
    return out


def no_reader(ignored):
    """A pipe that nobody reads, with the signal for it as usual or ignored."""
    taken, given = os.pipe()
    os.close(taken)
    kept = signal.signal(signal.SIGPIPE, signal.SIG_IGN if ignored else signal.SIG_DFL)
    process = start(stdout=given, restore_signals=False)
    signal.signal(signal.SIGPIPE, signal.SIG_IGN)
    os.close(given)
    out = result(process, SAMPLE)
    signal.signal(signal.SIGPIPE, kept)
    return out


def children(pid):
    """The processes that a process has started."""
    found = []
    for name in filter(str.isdigit, os.listdir("/proc")):
        try:
            with open(f"/proc/{name}/stat", encoding="utf-8", errors="replace") as file:
                if int(file.read().rsplit(")", 1)[1].split()[1]) == pid:
                    found.append(int(name))
        except OSError:
            pass
    return found


def stopped(number, wrapper):
    """A signal while the program waits for more input, to it or to ./play."""
    process = start()
    process.stdin.write(SAMPLE[:18])
    process.stdin.flush()
    first = process.stdout.read(2)
    programs = children(process.pid)
    os.kill(process.pid if wrapper else programs[0], number)
    status = process.wait(10)
    rest, err = process.stdout.read(), process.stderr.read()
    process.stdin.close()
    return status, first + rest, err, len(programs), [pid for pid in programs if os.path.exists(f"/proc/{pid}")]


def cases(shim):
    """Each case's name, what it gave and what it must give."""
    for name, line, expected in COMMANDS:
        yield name, of_command(line), expected
    for name, call, numbers, expected in FAULTS:
        yield name, of_fault(shim, call, numbers), expected
    for name, call, numbers, expected in FILE_FAULTS:
        yield name, of_file_fault(shim, call, numbers), expected
    yield "many requests", result(start(), LONG), (0, LONG_ANSWERS, b"")
    yield "a pipe that does not block, and a slow reader", slow_reader(), (0, LONG_ANSWERS, b"")
    yield "a pipe that does not block, and a slow writer", slow_writer(), (0, ANSWERS, b"")
    yield "no reader", no_reader(ignored=False), (1, b"", b"")
    yield "no reader, and the signal ignored", no_reader(ignored=True), (1, b"", unwritten(errno.EPIPE))
    ended = missing("the program was ended by signal 9")
    yield "the program is killed", stopped(signal.SIGKILL, wrapper=False), (1, b"0\n", ended, 1, [])
    yield "./play is stopped", stopped(signal.SIGTERM, wrapper=True), (1, b"0\n", b"", 1, [])


def stand_in(folder, status):
    """Puts a command rt first on the path that only ends with a status."""
    path = os.path.join(folder, "rt")
    with open(path, "w", encoding="utf-8") as file:
        file.write(f"#!/bin/sh\nexit {status}\n")
    os.chmod(path, 0o755)


def main():
    # ./play proves and builds first, which takes minutes where no earlier check is kept: the alarm is for the cases.
    subprocess.run([PLAY], stdin=subprocess.DEVNULL, stdout=subprocess.DEVNULL, stderr=subprocess.DEVNULL, timeout=3000)
    signal.alarm(100)  # a case that hangs fails
    usual, failed, passed = os.environ["PATH"], 0, 0
    with tempfile.TemporaryDirectory() as folder:
        shim = os.path.join(folder, "faults.so")
        code = os.path.join(TOP, "tests", "play_faults.c")
        subprocess.run(["gcc", "-shared", "-fPIC", "-O2", "-Wall", "-Wextra", "-o", shim, code], check=True)
        results = [("with rt", result(start(), SAMPLE), (0, ANSWERS, b""))]
        os.environ["PATH"] = folder + os.pathsep + usual
        stand_in(folder, 1)
        unproved = b"play: it is not proved; target/play.log says why\n"
        results.append(("a program that is not proved", result(start(), SAMPLE), (1, b"", unproved)))
        stand_in(folder, 0)
        results.extend(cases(shim))
    for name, got, expected in results:
        if got == expected:
            passed += 1
            continue
        failed += 1
        print(f"{name}:")
        for what, is_, should in zip(("status", "output", "standard error", "programs", "left"), got, expected):
            if is_ != should:
                print(f"  {what} is {str(is_)[:300]}, should be {str(should)[:300]}")
    left = [name for name in os.listdir(os.path.join(TOP, "target")) if name.startswith("play.done.")]
    if left:
        failed += 1
        print(f"left in target: {left}")
    print(f"{passed} passed, {failed} failed")
    return 1 if failed else 0


if __name__ == "__main__":
    sys.exit(main())
