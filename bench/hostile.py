#!/usr/bin/env python3
"""Hostile inputs, and what they cost.

    hostile.py FLOWPATHS FLOWCHECK [--seed S] [--family F,..]

runs FLOWPATHS on each input, FLOWCHECK on that input and the report, and prints a table in Markdown. Inputs come through a pipe and are made as they
are read, so that none is held here. The same words give the same bytes. Families:

    names         names of 65,000 bytes that differ at their end only; names of 200 bytes that begin alike; names that meet in the hash table, of eight
                  bytes and of 65,000
    constraints   a `#S` line of 30,000 names, 256 of them, 100,000 that repeat one, 255 long ones on a chain and on a grid
    comments      a million comment lines between the header and the number of vertices
    shapes        a chain, a star, a complete bipartite graph, a complete graph without cycles and nested diamonds with weights up to 10^12: `exact`;
                  `abs` with 64 paths; `interval` with ranges 0 to 10^12, and with ranges that contradict each other in the last edge; with a cycle
                  that the last edge closes
    searches      nets on which neither search gains anything: weights of which no few add up to another, with 1 token and with 20,000
    gigabytes     2^30 - 1 bytes of one line, of blanks, of `#`, of line feeds, of comments, of edges, and 2^30 bytes; as a graph and as a report
    bytes         NUL, 0x80 to 0xff, lone carriage returns, byte order marks, UTF-16
    prefixes      each prefix of each example; the checker says yes to what is written of it

A run fails where it ends with another status than is stated for its input, where the checker says anything but yes, or where it takes more than its
limits: 2 seconds of processor time and 64 MB up to 256 edges, 10 seconds and 256 MB above, 10 seconds for a gigabyte; for names and reports that have
to be held, 3 bytes more for each of theirs. No run gets more than 5 GiB of address space. Where both searches are used up with 20,000 tokens, the limit is
30 seconds. The last line has the counts, and the status is 1 where a run failed.
"""
import argparse
import os
import random
import resource
import sys
import tempfile
import threading
import time
from collections import namedtuple
from functools import reduce
from itertools import combinations
from pathlib import Path
from subprocess import DEVNULL, PIPE, Popen

import claims
from large import grid_paths
from measure import peak_of

SIZES = 256, 4096
MOST = 10**12
LONGEST_NAME = 65_000
GIGABYTE = 2**30
KILL = 120
MOST_SPACE = 2**32 + 2**30
EXAMPLES = Path(__file__).parent.parent / "examples"
FAMILIES = "names", "constraints", "comments", "shapes", "searches", "gigabytes", "bytes", "prefixes"

Trial = namedtuple("Trial", "name words pieces statuses seconds megabytes held", defaults=((0, 1), 2, 64, 0))
Run = namedtuple("Run", "status seconds megabytes")


# ---- graphs

def sized(trial_name, words, edges, text, statuses=(0, 1), held=0, seconds=None):
    """A trial with the limits of its number of edges."""
    small = edges <= 256
    return Trial(trial_name, words, lambda: [text], statuses, seconds or (2 if small else 10), 64 if small else 256, held)


def text_of(edges, head="# hostile\n0\n"):
    return (head + "".join(" ".join(map(str, edge)) + "\n" for edge in edges)).encode()


def chain(draw, size):
    return [(f"v{place}", f"v{place + 1}", MOST) for place in range(size)]


def star(draw, size):
    return [("s", f"v{place}", MOST - draw.randrange(MOST // 2)) for place in range(size)]


def bipartite(draw, size):
    side = int(size**0.5)
    return [(f"a{u}", f"b{v}", MOST - draw.randrange(MOST // 2)) for u in range(side) for v in range(side)]


def complete(draw, size):
    """All edges from lower to higher vertices, as many vertices as the size allows; the flow goes through at most two inner vertices."""
    count = max(n for n in range(2, size) if n * (n - 1) // 2 <= size)
    flows = {pair: 0 for pair in combinations(range(count), 2)}
    for pair in combinations(range(count), 2):
        path = sorted({0, *pair, count - 1})
        weight = draw.randrange(1, MOST // count)
        for edge in zip(path, path[1:]):
            flows[edge] += weight
    return [(f"v{u}", f"v{v}", weight) for (u, v), weight in flows.items()]


def diamonds(draw, size):
    """Nested ones: an edge is made into a diamond, and each of its edges again, as often as the size allows."""
    edges = [("s", "t", MOST)]
    while 4 * len(edges) <= size:
        inner = []
        for u, v, weight in edges:
            part = draw.randrange(weight // 4, weight * 3 // 4) if weight > 1 else 0
            for share in (part, weight - part):
                middle = f"m{len(edges)}_{len(inner)}"
                inner += [(u, middle, share), (middle, v, share)]
        edges = inner
    return edges


def sums_of(paths):
    """Edges with the sums of the weights of the paths through them."""
    flows = {}
    for weight, path in paths:
        for edge in zip(path, path[1:]):
            flows[edge] = flows.get(edge, 0) + weight
    return [(u, v, weight) for (u, v), weight in flows.items()]


def layers(draw, size):
    """Paths over layers with weights of which no few add up to another, so that a greedy answer is seldom the least."""
    width, paths, flows = int(size**0.5) * 3 // 8, [], {}
    while len(flows) < size - 40:
        path = ["s"] + [f"v{layer}_{draw.randrange(width)}" for layer in range(10)] + ["t"]
        paths.append((path, draw.randrange(1, MOST // 200)))
        for edge in zip(path, path[1:]):
            flows[edge] = flows.get(edge, 0) + paths[-1][1]
    return [(u, v, min(weight, MOST)) for (u, v), weight in flows.items()]


SHAPES = chain, star, bipartite, complete, diamonds


def shapes(draw):
    for size in SIZES:
        for shape in SHAPES:
            edges = shape(draw, size)
            name, one = f"{shape.__name__} {len(edges):,}", ["--nodes", "1"]
            yield sized(f"{name} exact", one, size, text_of(edges))
            yield sized(f"{name} abs 64", [*one, "--model", "abs", "--paths", "64"], size, text_of(edges))
            yield sized(f"{name} interval 0 to 10^12", [*one, "--model", "interval"], size, text_of([(u, v, 0, MOST) for u, v, _ in edges]))
            yield sized(f"{name} contradiction", [*one, "--model", "interval"], size, text_of(contradiction(edges)), (0,))
            yield sized(f"{name} cycle", one, size, text_of(cycle(edges)), (2,))


def contradiction(edges):
    """Ranges of which the last is above all that can come to it."""
    first = edges[:-1]
    tails = {u for u, _, _ in first}
    return [(u, v, 0, 1000) for u, v, _ in first] + [(next(v for _, v, _ in first if v not in tails), "behind", MOST, MOST)]


def cycle(edges):
    return edges[:-1] + [(edges[0][1], edges[0][0], 1)]


def searches(draw):
    for size in SIZES:
        for shape in (layers, diamonds, complete):
            edges = shape(draw, size)
            lower = [(u, v, weight - weight // 10, weight + weight // 10) for u, v, weight in edges]
            wide = text_of([(u, v, lo, min(hi, MOST)) for u, v, lo, hi in lower])
            wrong = text_of([(u, v, max(0, weight - draw.randrange(weight // 20 + 1))) for u, v, weight in edges])
            for nodes in ("1", "20000") if size == 256 else ("1",):
                name, words = f"{shape.__name__} {len(edges):,}", ["--nodes", nodes]
                seconds = 30 if nodes == "20000" else None
                yield sized(f"{name} exact {nodes}", words, size, text_of(edges), seconds=seconds)
                yield sized(f"{name} interval {nodes}", [*words, "--model", "interval"], size, wide, seconds=seconds)
                yield sized(f"{name} abs 8 {nodes}", [*words, "--model", "abs", "--paths", "8"], size, wrong, seconds=seconds)


# ---- names and lines

def through(names):
    """Two edges for each name, and weights that balance."""
    yield b"# names\n0\n"
    for place, name in enumerate(names, 1):
        yield b"s %s %d\n%s t %d\n" % (name, place, name, place)


def long_names(count):
    """Names that differ in their last bytes only, none of which is a blank, a line feed or a carriage return."""
    letters = b"ABCDEFGHIJKLMNOPQRSTUVWXYZabcdefghijklmnopqrstuvwxyz0123456789-+"
    begin = b"v" * (LONGEST_NAME - 2)
    return (begin + bytes([letters[place // 64], letters[place % 64]]) for place in range(count))


def folded(state, byte):
    """The step of the hash of names: a product of 128 bits, its halves joined."""
    product = (state ^ byte * 0x10101) * (0x9E37_79B9_7F4A_7C15 ^ 2)
    return (product ^ product >> 64) & (2**64 - 1)


def meeting_names(count, groups, tags, length=8):
    """Names of so many bytes whose hashes have the same last bits, and where so asked the same first eight: they meet in one place of the table.
    They differ in their last eight bytes."""
    front = b"v" * (length - 8)
    product = (0x243F_6A88_85A3_08D3 ^ length) * (0x9E37_79B9_7F4A_7C15 ^ 16)
    begin, found, place = reduce(folded, front, (product ^ product >> 64) & (2**64 - 1)), 0, 0
    while True:
        stem = b"%07d" % place
        state = reduce(folded, stem, begin)
        for byte in range(33, 256):
            last = folded(state, byte)
            last = (last ^ last >> 32) & 0xFFFF_FFFF
            if last & groups - 1 == 1 and (not tags or last >> 24 == 7):
                yield front + stem + bytes([byte])
                found += 1
                if found == count:
                    return
        place += 1


def names(draw):
    for size in SIZES:
        small, one = size == 256, ["--nodes", "1"]
        limits = dict(seconds=2 if small else 10, megabytes=64 if small else 256)
        held = size // 2 * LONGEST_NAME
        yield Trial(f"names of 65,000 bytes {size:,}", one, lambda size=size: through(long_names(size // 2)), **limits, held=held)
        alike = [(f"{'v' * 200}{u}", f"{'v' * 200}{v}", weight) for u, v, weight in layers(draw, size)]
        yield sized(f"names that begin alike {size:,}", one, size, text_of(alike))
        for length in (8, LONGEST_NAME):
            met = list(meeting_names(size // 2, 64 if small else 1024, small, length))
            yield Trial(f"names of {length:,} bytes that meet {size:,}", one, lambda met=met: through(met), **limits, held=sum(map(len, met)))


def listed(place, count):
    """A `#S` line of so many names of one byte, of which two differ from line to line."""
    letters = b"ABCDEFGHIJKLMNOP"
    return b"#S" + b" %c %c" % (letters[place // 16], letters[place % 16]) + b" a b" * (count // 2 - 1) + b"\n"


def constraints(draw):
    edge = b"0\na b 1\n"
    yield Trial("one of 30,000 names", [], lambda: [b"# c\n", listed(0, 30_000), edge], (2,))
    yield Trial("256 of 30,000 names", [], lambda: [b"# c\n", *(listed(place, 30_000) for place in range(256)), edge], (2,), held=256 * 60_000)
    one_more = [*(listed(place, 30_000) for place in range(256)), listed(0, 30_002)]
    yield Trial("257 of 30,000 names", [], lambda: [b"# c\n", *one_more, edge], (2,), held=256 * 60_000)
    yield Trial("one of 30,000 names 10,000 times", [], lambda: [b"# c\n", *(listed(0, 30_000) for _ in range(10_000)), edge], (2,), seconds=10)
    yield Trial("one of 10 names 100,000 times", [], lambda: [b"# c\n", *(listed(0, 10) for _ in range(100_000)), edge], (2,))
    for size in SIZES:
        edges = chain(draw, size)
        runs = [f"#S {' '.join(f'v{n}' for n in range(begin, size - 256 + begin + 1 if size > 256 else size))}\n" for begin in range(255)]
        text = text_of(edges, "# c\n" + "".join(runs) + "0\n")
        yield sized(f"255 long ones on a chain {size:,}", ["--nodes", "1"], size, text, held=len(text))
        yield sized(f"255 long ones on a chain abs {size:,}", ["--nodes", "1", "--model", "abs", "--paths", "1"], size, text, held=len(text))
        paths = grid_paths(draw, size)
        runs = "".join(f"#S {' '.join(path)}\n" for _, path in paths[:255])
        text = text_of(sums_of(paths), f"# c\n{runs}0\n")
        for nodes, limit in (("1", None), ("20000", 30)) if size == 256 else (("1", None),):
            yield sized(f"{min(255, len(paths))} long ones on a grid {nodes} {size:,}", ["--nodes", nodes], size, text, held=len(runs), seconds=limit)
            words = ["--nodes", nodes, "--model", "abs", "--paths", "64"]
            yield sized(f"{min(255, len(paths))} long ones on a grid abs {nodes} {size:,}", words, size, text, held=len(runs), seconds=limit)


def comments(draw):
    yield Trial("a million comment lines", [], lambda: [b"# c\n", *[b"# a comment\n" * 1000] * 1000, b"2\ns t 1\n"])
    yield Trial("a million blank lines", [], lambda: [b"# c\n", *[b" \t\r\n" * 1000] * 1000, b"2\ns t 1\n"])
    yield Trial("a million headers", [], lambda: [b"#\n" * 1000] * 1000)


def repeated(piece, size):
    whole = piece * (2**20 // len(piece))
    for _ in range(size // len(whole)):
        yield whole
    yield (piece * (size % len(whole) // len(piece) + 1))[: size % len(whole)]


def gigabytes(draw):
    kinds = (("one line", b"a", 2), ("blanks", b" ", 0), ("`#`", b"#", 0), ("line feeds", b"\n", 0), ("comments", b"# comment\n", 0),
             ("edges of one graph", b"s t 1\n", 2), ("bytes 0", b"\0", 2), ("carriage returns", b"\r", 2))
    for name, piece, status in kinds:
        yield Trial(f"2^30 - 1 bytes, {name}", [], lambda piece=piece: repeated(piece, GIGABYTE - 1), (status,), 10)
    for name, piece, _ in kinds[:4]:
        yield Trial(f"2^30 bytes, {name}", [], lambda piece=piece: repeated(piece, GIGABYTE), (6,), 10)


def odd_bytes(draw):
    for name, text in odd_texts():
        yield Trial(f"bytes: {name}", ["--nodes", "1"], lambda text=text: [text], None)


def odd_texts():
    plain = b"# g\n3\ns a 3\na t 3\n"
    for byte in (0, 11, 12, 13, 27, 127, *range(128, 256)):
        yield f"{byte} in names", plain.replace(b"a", bytes([byte]))
        yield f"{byte} at line ends", plain.replace(b"\n", bytes([byte]) + b"\n")
        yield f"{byte} alone", bytes([byte]) * 1000
    for mark, code in ((b"\xef\xbb\xbf", "utf-8"), (b"\xff\xfe", "utf-16-le"), (b"\xfe\xff", "utf-16-be"), (b"\xff\xfe\0\0", "utf-32-le")):
        yield f"byte order mark and {code}", mark + plain.decode().encode(code)
        yield f"{code}", plain.decode().encode(code)
        yield f"byte order mark of {code} alone", mark + plain
    yield "lone carriage returns", plain.replace(b"\n", b"\r")
    yield "two carriage returns", plain.replace(b"\n", b"\r\r\n")
    yield "all bytes", bytes(range(256)) * 64


def prefixes(draw):
    words = {"noisy": ["--model", "abs", "--paths", "2"], "ranges": ["--model", "interval"]}
    for file in sorted(EXAMPLES.glob("*.graph")):
        text = file.read_bytes()
        for end in range(len(text) + 1):
            yield Trial(f"prefix {end} of {file.name}", ["--nodes", "10", *words.get(file.stem, [])], lambda text=text[:end]: [text], None)


# ---- runs

def feed(process, pieces):
    """Writes the pieces into the program, until it takes no more."""
    try:
        for piece in pieces:
            process.stdin.write(piece)
    except BrokenPipeError:
        pass
    try:
        process.stdin.close()
    except BrokenPipeError:
        pass


def run(command, pieces, target):
    with open(target, "wb") as out:
        process = Popen(command, stdin=PIPE, stdout=out, stderr=DEVNULL)
    resource.prlimit(process.pid, resource.RLIMIT_AS, (MOST_SPACE, MOST_SPACE))
    feeder = threading.Thread(target=feed, args=(process, pieces))
    feeder.start()
    latest, peak, done, wait = time.monotonic() + KILL, 0, 0, 0.0002
    while not done:
        peak = max(peak, peak_of(process.pid))
        if time.monotonic() > latest:
            process.kill()
        time.sleep(wait)
        wait = min(0.01, wait * 1.5)
        done, status, used = os.wait4(process.pid, os.WNOHANG)
    process.returncode = os.waitstatus_to_exitcode(status)
    feeder.join()
    own = resource.getrusage(resource.RUSAGE_SELF).ru_maxrss
    peak = max(peak, used.ru_maxrss if used.ru_maxrss > own else 0)
    return Run(process.returncode, used.ru_utime + used.ru_stime, peak / 1000)


def model_of(words):
    given = dict(zip(words, words[1:]))
    return given.get("--model", "exact").encode(), int(given["--paths"]) if "--paths" in given else None


class Trials:
    def __init__(self, options):
        self.options, self.passed, self.failed = options, 0, 0
        self.folder = tempfile.TemporaryDirectory(prefix="hostile.")
        self.report, self.answer = (os.path.join(self.folder.name, name) for name in ("one.report", "one.answer"))
        self.worst = {}

    def trial(self, family, trial):
        solved = run([self.options.flowpaths, *trial.words], trial.pieces(), self.report)
        checked = run([self.options.flowcheck, "-", self.report], trial.pieces(), self.answer)
        size = os.path.getsize(self.report)
        faults = list(self.faults(trial, solved, checked, size))
        if family not in ("bytes", "prefixes"):
            row = (trial.name, solved.status, f"{solved.seconds:.3f}", f"{solved.megabytes:.1f}", size, f"{checked.seconds:.3f}", f"{checked.megabytes:.1f}")
            print("| " + " | ".join(map(str, row)) + " |", flush=True)
        worst = self.worst.setdefault(family, [0] * 5)
        self.worst[family] = [worst[0] + 1, *map(max, worst[1:], (*solved[1:], *checked[1:]))]
        self.count(trial.name, faults)

    def count(self, name, faults):
        for fault in faults:
            print(f"{name}: {fault}", flush=True)
        self.passed, self.failed = self.passed + (not faults), self.failed + bool(faults)

    def faults(self, trial, solved, checked, size):
        statuses = trial.statuses
        if statuses is None:
            with open(self.report, "rb") as report:
                fault = claims.first_fault(b"".join(trial.pieces()), model_of(trial.words), report.read(), solved.status)
            if fault:
                yield fault
        elif solved.status not in statuses:
            yield f"status {solved.status} and not one of {statuses}"
        if checked.status != (6 if solved.status == 6 else 0):
            yield f"the checker has status {checked.status}"
        with open(self.answer, "rb") as answer:
            if any(not line.endswith(b" yes\n") for line in answer):
                yield "the checker does not say yes"
        for name, ran, held in (("flowpaths", solved, trial.held), ("flowcheck", checked, trial.held + size)):
            if ran.seconds > trial.seconds:
                yield f"{name} takes {ran.seconds:.1f} seconds, and {trial.seconds} are allowed"
            if ran.megabytes > trial.megabytes + 3 * held / 10**6:
                yield f"{name} takes {ran.megabytes:.0f} MB, and {trial.megabytes + 3 * held / 10**6:.0f} are allowed"

    def long_reports(self):
        """The checker on reports of 2^30 - 1 and of 2^30 bytes, which it has to hold."""
        with open(os.path.join(self.folder.name, "one.graph"), "wb") as graph:
            graph.write(b"# one\n2\ns t 5\n")
        for size, status in ((GIGABYTE - 1, 2), (GIGABYTE, 6)):
            for name, piece in (("one line", b"a"), ("line feeds", b"\n"), ("lines `end`", b"end\n")):
                checked = run([self.options.flowcheck, graph.name, "-"], repeated(piece, size), self.answer)
                print(f"| report of {size} bytes, {name} | | | | | {checked.seconds:.3f} | {checked.megabytes:.1f} |", flush=True)
                faults = [f"status {checked.status} and not {status}"] * (checked.status != status)
                faults += [f"{checked.megabytes:.0f} MB"] * (checked.megabytes > 64 + 3 * size / 10**6)
                faults += [f"{checked.seconds:.1f} seconds"] * (checked.seconds > 10)
                self.count(f"report of {size} bytes, {name}", faults)


MAKERS = dict(zip(FAMILIES, (names, constraints, comments, shapes, searches, gigabytes, odd_bytes, prefixes)))


def main():
    asked = argparse.ArgumentParser(description=__doc__, formatter_class=argparse.RawDescriptionHelpFormatter)
    asked.add_argument("flowpaths")
    asked.add_argument("flowcheck")
    asked.add_argument("--seed", type=int, default=1)
    asked.add_argument("--family", default=",".join(FAMILIES))
    options = asked.parse_args()
    trials = Trials(options)
    print("| input | status | seconds | MB | bytes of the report | seconds to check | MB to check |\n|---|---|---|---|---|---|---|")
    for family in options.family.split(","):
        for trial in MAKERS[family](random.Random(f"{options.seed} {family}")):
            trials.trial(family, trial)
        if family == "gigabytes":
            trials.long_reports()
    print("\n| family | inputs | worst seconds | worst MB | worst seconds to check | worst MB to check |\n|---|---|---|---|---|---|")
    for family, (count, *worst) in trials.worst.items():
        print(f"| {family} | {count:,} | " + " | ".join(f"{value:.3f}" if place % 2 == 0 else f"{value:.1f}" for place, value in enumerate(worst)) + " |")
    print(f"{trials.passed} passed, {trials.failed} failed")
    return 1 if trials.failed else 0


if __name__ == "__main__":
    sys.exit(main())
