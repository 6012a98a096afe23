#!/usr/bin/env python3
"""Runs with less and less memory: whatever growth is refused, both programs end as stated.

    growths.py FLOWPATHS FLOWCHECK [--runs N]

has cases: rows with constraints and with errors, safe runs, long names, many graphs, long constraints, many tokens, a long search on a graph of some 216
edges, and the reports on them. Of each it does two things.

    calls    each call for memory is refused in turn, the first one, the second one and so on, until a run makes no such call. A library that a C
             compiler makes of refuse.c stands between the program and the system for that.
    limits   the case runs N times, 200 where nothing is said, with limits of data (`ulimit -d`) that rise by equal steps, from the least with which the
             system starts the program up to the least with which it does the whole. A limit of address space (`ulimit -v`) would hold for the stack
             too, and where that cannot grow the system ends a program by a signal.

Each run has to end with the whole output and its status, or with status 5, the line `out of memory`, and the whole reports, or lines, of some first
graphs. The last line has the counts, and the status is 1 where a run failed.
"""
import argparse
import itertools
import os
import random
import resource
import signal
import subprocess
import sys
import tempfile
from collections import Counter
from functools import partial
from pathlib import Path

from hostile import layers, long_names, text_of, through

PAGE = 4096
PLENTY = 2**32
SECONDS = 60
STATUSES = range(7)
REFUSE = Path(__file__).with_name("refuse.c")
RULED = b"# diamonds\n#S b m c\n#S b m d\n#S b m c\n7\ns a 5\na m 5\ns b 2\nb m 2\nm c 4\nc t 4\nm d 3\nd t 3\n"
UNEQUAL = b"# x\n3\ns a 3\na t 5\n"


def cases():
    """A name, words, and a text of graphs for each case."""
    draw = random.Random(1)
    small = b"".join(text_of(layers(draw, 60), f"# graph {place}\n0\n") for place in range(40))
    runs = b"".join(b"#S " + b" ".join(b"v%d" % n for n in range(begin, 250)) + b"\n" for begin in range(100))
    chain = b"".join(b"v%d v%d 7\n" % (n, n + 1) for n in range(250))
    yield "constraints", [], RULED
    yield "errors", ["--model", "abs", "--paths", "1"], UNEQUAL
    yield "safe runs", ["--safe"], RULED
    yield "many graphs", ["--nodes", "500"], small
    yield "long names", [], b"".join(through(long_names(60)))
    yield "long constraints", [], b"# c\n" + runs + b"0\n" + chain
    yield "a long search", ["--nodes", "20000"], text_of(layers(draw, 256))
    yield "many tokens", ["--nodes", "1000000"], RULED


def run(command, text, space=PLENTY, **more):
    """Runs a command with so many bytes of data; its output, its standard error and its status, which is none where it hangs."""
    limited = partial(resource.setrlimit, resource.RLIMIT_DATA, (space, space))
    try:
        done = subprocess.run(command, input=text, capture_output=True, preexec_fn=limited, check=False, timeout=SECONDS, **more)
    except subprocess.TimeoutExpired:
        return b"", b"", None
    return done.stdout, done.stderr, done.returncode


def run_refusing(library, command, text, call):
    """Runs a command of which a call for memory is refused, counted from 1, and says whether it made that call."""
    told, tell = os.pipe()
    with open(told, "rb") as told, open(tell, "wb") as tell:
        words = {"LD_PRELOAD": str(library), "REFUSED_CALL": str(call), "REFUSED_PIPE": str(tell.fileno())}
        ran = run(command, text, env=words, pass_fds=[tell.fileno()])
        tell.close()
        return ran, told.read() != b""


def least_space(is_enough):
    """The least number of pages with which something holds that holds with all more."""
    low, high = 0, PLENTY // PAGE
    while high - low > 1:
        middle = (low + high) // 2
        low, high = (low, middle) if is_enough(middle * PAGE) else (middle, high)
    return high * PAGE


def first_ones(whole, end):
    """All texts of some first reports, or lines, which end with some bytes; reports have a line `end`."""
    parts, found = whole.split(end), {b""}
    for count in range(1, len(parts)):
        found.add(b"".join(part + end for part in parts[:count]))
    return found


def fault_of(ran, whole, firsts, name):
    """What is wrong with a run, or None."""
    output, notes, status = ran
    if status == whole[2] and output == whole[0]:
        return None
    if status != 5:
        return f"status {status}" + (f", {signal.Signals(-status).name}" if status is not None and status < 0 else "")
    if notes != b"%s: out of memory\n" % name:
        return f"the line {notes!r}"
    return None if output in firsts else "an output that is no first reports"


class Growths:
    def __init__(self, runs, library):
        self.runs, self.library, self.passed, self.failed = runs, library, 0, 0
        self.refused = Counter()

    def case(self, title, name, command, text):
        """Runs a case with all calls for memory refused in turn and with less and less memory, and tells its whole output."""
        whole = run(command, text)
        firsts = first_ones(whole[0], b"\nend\n" if name == b"flowpaths" else b"\n")
        fault = partial(fault_of, whole=whole, firsts=firsts, name=name)
        title = f"{name.decode()}, {title}"
        self.refuse_calls(title, command, text, fault)
        self.limit_space(title, command, text, fault, whole)
        return whole[0]

    def refuse_calls(self, title, command, text, fault):
        counts = Counter()
        for call in itertools.count(1):
            ran, is_refused = run_refusing(self.library, command, text, call)
            self.count(fault(ran), f"{title}, call {call}")
            if not is_refused:
                break
            counts[ran[2]] += 1
        self.refused["calls"] += counts.total()
        print(f"{title}: {counts.total()} calls for memory refused: {said(counts)}", flush=True)

    def limit_space(self, title, command, text, fault, whole):
        start = least_space(lambda space: run(command, text, space)[2] in STATUSES)
        enough = least_space(lambda space: run(command, text, space)[::2] == whole[::2])
        step = max(PAGE, (enough - start) // self.runs // PAGE * PAGE)
        counts = Counter()
        for space in range(start, enough + 2 * step, step):
            ran = run(command, text, space)
            self.count(fault(ran), f"{title}, {space} bytes")
            counts[ran[2]] += 1
        self.refused["limits"] += counts.total()
        print(f"{title}: {start / 1e6:.2f} to {enough / 1e6:.2f} MB in steps of {step}: {said(counts)}", flush=True)

    def count(self, fault, what):
        self.passed, self.failed = self.passed + (not fault), self.failed + bool(fault)
        if fault:
            print(f"{what}: {fault}", flush=True)


def said(counts):
    return ", ".join(f"status {status} {times} times" for status, times in sorted(counts.items(), key=str))


def main():
    asked = argparse.ArgumentParser(description=__doc__, formatter_class=argparse.RawDescriptionHelpFormatter)
    asked.add_argument("flowpaths")
    asked.add_argument("flowcheck")
    asked.add_argument("--runs", type=int, default=200)
    options = asked.parse_args()
    with tempfile.TemporaryDirectory() as folder:
        report, library = Path(folder, "one.report"), Path(folder, "refuse.so")
        subprocess.run(["cc", "-O2", "-shared", "-fPIC", "-o", library, REFUSE], check=True)
        growths = Growths(options.runs, library)
        for title, words, text in cases():
            report.write_bytes(growths.case(title, b"flowpaths", [options.flowpaths, *words], text))
            growths.case(title, b"flowcheck", [options.flowcheck, "-", str(report)], text)
    print(f"{growths.refused['calls']} runs with a call refused, {growths.refused['limits']} with a limit")
    print(f"{growths.passed} passed, {growths.failed} failed")
    return 1 if growths.failed else 0


if __name__ == "__main__":
    sys.exit(main())
