#!/usr/bin/env python3
"""Damaged graphs and reports, and what both programs make of them.

    damage.py FLOWPATHS FLOWCHECK [--count N] [--seed S]

makes graphs in all three models and has FLOWPATHS report on them. Then N times, 1,000 where nothing is said, it damages a text: bytes or lines are
changed, left out, doubled, exchanged, cut off, or pieces of other texts stand among them. In turn it is a graph, which FLOWPATHS solves and FLOWCHECK
looks at with what was written; a report, which FLOWCHECK looks at with the graph; and a report that is given to FLOWPATHS as a graph. Each run has to
end with a status that docs/FORMATS.md states for it, and both programs have to say what claims.py reads: which blocks are refused, where and why; of
every report that is written, and of every `yes`, that paths, sums, antichains, cuts, crowds, tokens and safe runs are as claimed; and of every `no` the
line. The same words make the same trials. The last line has the counts, of what was done so far where it is interrupted, and the status is 1 where a
trial failed; such a trial is printed.
"""
import argparse
import random
import re
import resource
import subprocess
import sys
import tempfile
import time
from collections import Counter
from pathlib import Path

import claims
from check_models import some_graph, text_of

MODELS = ("exact", None), ("interval", None), ("abs", 0), ("abs", 1), ("abs", 2)
NODES = 1, 8, 60
SPECIAL = b"\0\t\n\r #0123456789.-+S\x7f\x80\xff"
LONGEST_PIECE = 40
SECONDS = 20
EXAMPLES = Path(__file__).parent.parent / "examples"


class Base:
    """A text of graphs, the words to solve it with, and the reports on it."""

    def __init__(self, flowpaths, model, most, nodes, text):
        self.model = model.encode(), most
        self.words = ["--model", model, "--nodes", str(nodes)]
        self.words += ["--paths", str(most)] if most is not None else ["--safe"] if model == "exact" and nodes == 8 else []
        self.graph = text
        self.report = subprocess.run([flowpaths, *self.words], input=text, capture_output=True, check=False, timeout=SECONDS).stdout


def bases_of(flowpaths, draw):
    """Texts of one to four small graphs, examples, and a text that has every cause of a refusal that is short."""
    texts = [(model, most, nodes, some_text(draw, model)) for model, most in MODELS for nodes in NODES for _ in range(8)]
    texts += [(model, most, 8, file.read_bytes()) for file in sorted(EXAMPLES.glob("*.graph")) for model, most in MODELS[::2]]
    texts += [(model, most, 8, b"".join(refused_texts())) for model, most in MODELS[:3]]
    return [Base(flowpaths, *text) for text in texts]


def some_text(draw, model):
    return "".join(text_of(some_graph(draw, model), model, f"graph {place}") for place in range(draw.randint(1, 4))).encode()


def refused_texts():
    for block in (b"2|a b 1|b a 1", b"2|s t 10.5", b"two", b"2|s t 5 6", b"2|s t 5 4", b"2|s t 1|s t 1", b"#S s|2|s t 1", b"#S s u|2|s t 1", b"3|s a 3|a t 5"):
        yield b"# x\n" + block.replace(b"|", b"\n") + b"\n"


# ---- damage

def damaged(draw, text, others):
    for _ in range(draw.choice((1, 1, 1, 2, 3, 8))):
        parts = draw.choice(PARTS).findall(text)
        text = b"".join(draw.choice(WAYS)(draw, parts, others))
    return text


def span(draw, parts):
    begin = draw.randint(0, len(parts))
    return begin, min(len(parts), begin + draw.choice((1, 1, 2, draw.randint(1, LONGEST_PIECE))))


def changed(draw, parts, others):
    begin, end = span(draw, parts)
    new = [bytes([draw.choice(SPECIAL) if draw.random() < 0.7 else draw.randrange(256)]) for _ in range(end - begin)]
    return parts[:begin] + new + parts[end:]


def dropped(draw, parts, others):
    begin, end = span(draw, parts)
    return parts[:begin] + parts[end:]


def doubled(draw, parts, others):
    begin, end = span(draw, parts)
    return parts[:end] + parts[begin:end] * draw.choice((1, 1, 5)) + parts[end:]


def swapped(draw, parts, others):
    (a, b), (c, d) = sorted((span(draw, parts), span(draw, parts)))
    return parts if b > c else parts[:a] + parts[c:d] + parts[b:c] + parts[a:b] + parts[d:]


def cut(draw, parts, others):
    return parts[: draw.randint(0, len(parts))]


def mixed(draw, parts, others):
    """A piece of another text stands within."""
    other = draw.choice(others)
    begin, at = draw.randint(0, len(other)), draw.randint(0, len(parts))
    return parts[:at] + [other[begin : begin + draw.randint(1, 200)]] + parts[at:]


def counted(draw, parts, others):
    """A number is one less, one more, or far away."""
    places = [place for place, part in enumerate(parts) if part.isdigit()]
    if not places:
        return parts
    at = draw.choice(places)
    near = str(max(0, int(parts[at]) + draw.choice((-1, 1))))
    return parts[:at] + [draw.choice((near, near, "0", "18446744073709551616", "4294967296", "1000000000001")).encode()] + parts[at + 1 :]


PARTS = re.compile(rb"[^\n]*\n|[^\n]+"), re.compile(rb"[^ \n]+|[ \n]"), re.compile(rb".", re.DOTALL)
WAYS = changed, changed, dropped, doubled, swapped, cut, mixed, counted, counted


# ---- trials

class Trials:
    def __init__(self, options):
        self.options, self.draw = options, random.Random(options.seed)
        self.folder = Path(tempfile.mkdtemp(prefix="damage."))
        self.files = self.folder / "x.graph", self.folder / "x.report"
        self.counts, self.worst, self.failed = Counter(), {"flowpaths": 0.0, "flowcheck": 0.0}, 0
        self.bases = bases_of(options.flowpaths, self.draw)
        self.others = [text for base in self.bases for text in (base.graph, base.report)]

    def run(self, name, words):
        begin = time.monotonic()
        try:
            done = subprocess.run([getattr(self.options, name), *words], stdin=subprocess.DEVNULL, capture_output=True, check=False, timeout=SECONDS)
        except subprocess.TimeoutExpired:
            return b"", None
        self.worst[name] = max(self.worst[name], time.monotonic() - begin)
        return done.stdout, done.returncode

    def solve(self, base, text):
        """What is wrong with a run of FLOWPATHS on a text, or of FLOWCHECK on what it wrote."""
        self.files[0].write_bytes(text)
        reports, status = self.run("flowpaths", [*base.words, str(self.files[0])])
        self.counts[f"flowpaths status {status}"] += 1
        return claims.first_fault(text, base.model, reports, status) or self.check(text, reports)

    def check(self, graph, report):
        """What is wrong with a run of FLOWCHECK."""
        self.files[0].write_bytes(graph)
        self.files[1].write_bytes(report)
        said, status = self.run("flowcheck", list(map(str, self.files)))
        self.counts[f"flowcheck status {status}"] += 1
        self.counts.update(f"said {line.split(b' ')[2].decode()}" for line in said.split(b"\n") if line.startswith(b"graph "))
        return claims.first_difference(graph, report, (said, status))

    def trial(self, place):
        base = self.draw.choice(self.bases)
        kind = self.draw.choice(("graph", "report", "report", "report", "both", "report as graph"))
        graph = damaged(self.draw, base.graph, self.others) if kind in ("graph", "both") else base.graph
        report = damaged(self.draw, base.report, self.others) if kind != "graph" else base.report
        if kind == "graph":
            fault = self.solve(base, graph)
        elif kind == "report as graph":
            fault = self.solve(base, report)
        else:
            fault = self.check(graph, report)
        self.counts[kind] += 1
        if fault:
            self.failed += 1
            print(f"trial {place}, {kind}, {' '.join(base.words)}: {fault}\n{graph!r}\n{report!r}", flush=True)


def main():
    asked = argparse.ArgumentParser(description=__doc__, formatter_class=argparse.RawDescriptionHelpFormatter)
    asked.add_argument("flowpaths")
    asked.add_argument("flowcheck")
    asked.add_argument("--count", type=int, default=1000)
    asked.add_argument("--seed", type=int, default=1)
    options = asked.parse_args()
    trials = Trials(options)
    done = 0
    try:
        for done in range(1, options.count + 1):
            trials.trial(done)
    except KeyboardInterrupt:
        done -= 1
    for kind, times in sorted(trials.counts.items()):
        print(kind, times)
    peak = resource.getrusage(resource.RUSAGE_CHILDREN).ru_maxrss / 1000
    print(f"longest run: flowpaths {trials.worst['flowpaths']:.3f} s, flowcheck {trials.worst['flowcheck']:.3f} s; at most {peak:.0f} MB")
    print(f"{done - trials.failed} passed, {trials.failed} failed")
    return 1 if trials.failed else 0


if __name__ == "__main__":
    sys.exit(main())
