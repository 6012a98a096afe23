#!/usr/bin/env python3
"""The yardstick: runs a program on 140 blocks in ten families, and counts what it decides.

    run.py PROGRAM [--checker FLOWCHECK] [--nodes N] [--family F[,F..]] [--timeout S] [--list]

PROGRAM and FLOWCHECK are command lines: options may follow the name.
Each block is a file of its own and one run, with the block's words from words.json, and --nodes N where N is given.
A block is decided where the mark is optimal or infeasible. A run that is not over after S seconds, a refusal,
or a status other than 0 and 1 decides nothing. All seconds are processor time, so a busy machine makes no difference.

What is printed is held against optima.json and against the graph:
  * paths that do not meet the model, or whose number or error is not `upper`;
  * `optimal` with another number than the known one, or outside the known bounds;
  * `infeasible` where an answer is known, an answer where none exists;
  * bounds that leave out the known number;
  * with --checker: a report to which FLOWCHECK does not say yes.
Each such thing is a line on standard error and counts as wrong. The status is 1 exactly where something is wrong.
"""
import argparse
import json
import os
import resource
import shlex
import subprocess
import sys
import tempfile

HERE = os.path.dirname(os.path.abspath(__file__))


def blocks_of(text):
    """The blocks of a text, each a list of lines: a `#` line behind a content line begins the next one."""
    found, content = [], True
    for line in text.split("\n"):
        fields = line.split()
        if not fields:
            continue
        if fields[0].startswith("#"):
            if content:
                found.append([])
                content = False
        else:
            content = True
        found[-1].append(line)
    return found


class Graph:
    def __init__(self, lines, interval):
        self.edges, self.range, self.runs = {}, [], []
        counted = False
        for line in lines:
            fields = line.split()
            if fields[0] == "#S":
                self.runs.append(fields[1:])
            elif fields[0].startswith("#"):
                continue
            elif not counted:
                counted = True
            else:
                self.edges[fields[0], fields[1]] = len(self.range)
                low = int(fields[2].split(".")[0])
                self.range.append((low, int(fields[3].split(".")[0]) if interval else low))
        self.tails = {tail for tail, _ in self.edges}
        self.heads = {head for _, head in self.edges}

    def objective(self, paths, k):
        """The number of paths, or with k their error; or text that says why they do not meet."""
        sums = [0] * len(self.range)
        for weight, path in paths:
            if weight < 1 or len(path) < 2 or path[0] in self.heads or path[-1] in self.tails:
                return "no path from a source to a sink"
            for pair in zip(path, path[1:]):
                if pair not in self.edges:
                    return "no edge %s %s" % pair
                sums[self.edges[pair]] += weight
        for run in self.runs:
            n = len(run)
            if not any(path[i:i + n] == run for _, path in paths for i in range(len(path) - n + 1)):
                return "a constraint is not covered"
        error = sum(max(0, low - x, x - high) for x, (low, high) in zip(sums, self.range))
        if k is None:
            return "an error of %d" % error if error else len(paths)
        return "more than %d paths" % k if len(paths) > k else error


def run(command, seconds):
    """The output, or none where the time was over; the status; the seconds of processor time."""
    def used():
        of = resource.getrusage(resource.RUSAGE_CHILDREN)
        return of.ru_utime + of.ru_stime
    begin = used()
    try:
        limit = int(seconds) + 1
        done = subprocess.run(command, stdout=subprocess.PIPE, stderr=subprocess.DEVNULL, timeout=20 * limit,
                              preexec_fn=lambda: resource.setrlimit(resource.RLIMIT_CPU, (limit, limit)))
        if done.returncode < 0:
            return None, None, used() - begin
        return done.stdout.decode(), done.returncode, used() - begin
    except subprocess.TimeoutExpired:
        return None, None, used() - begin


def read_report(text):
    report = {"paths": [], "cert": "-"}
    for line in text.split("\n"):
        fields = line.split()
        if not fields:
            continue
        if fields[0] in ("lower", "upper"):
            report[fields[0]] = None if fields[1] == "none" else int(fields[1])
        elif fields[0] in ("mark", "refused"):
            report[fields[0]] = fields[1]
        elif fields[0] == "path":
            report["paths"].append((int(fields[1]), fields[2:]))
        elif fields[0] == "cert":
            report["cert"] = fields[1] + (" " + fields[4] if fields[1] == "tree" else "")
        elif fields[0] == "end":
            break
    return report


def faults_of(graph, report, known, k):
    mark, low, high = report.get("mark"), report.get("lower"), report.get("upper")
    if mark is None:
        return ["no mark"]
    bad = []
    if high is not None:
        value = graph.objective(report["paths"], k)
        if value != high:
            bad.append("upper %s: %s" % (high, value))
        if known["status"] == "infeasible":
            bad.append("an answer where none exists")
    value = known["value"]
    least = known["lower"] if value is None else value
    most = known["upper"] if value is None else value
    if mark == "optimal" and (low is None or low != high):
        bad.append("optimal with %s and %s" % (low, high))
    if mark == "infeasible" and known["status"] != "infeasible" and most is not None:
        bad.append("infeasible, but an answer is known")
    if mark in ("optimal", "bounds") and known["status"] != "infeasible":
        if low is not None and most is not None and low > most:
            bad.append("lower %s, but %s is known" % (low, most))
        if high is not None and least is not None and high < least:
            bad.append("upper %s, but at least %s is known" % (high, least))
        if mark == "optimal" and value is not None and high != value:
            bad.append("optimal %s, but %s is known" % (high, value))
    return bad


def of_part(numbers, part):
    numbers = sorted(numbers)
    return numbers[min(len(numbers) - 1, int(part * len(numbers)))] if numbers else 0.0


def line_of(name, rows):
    times = [row[2] for row in rows]
    print("%-11s %7d %4d %6d %9.3f %9.3f %9.3f" % (
        name, sum(row[0] for row in rows), len(rows), sum(row[1] for row in rows),
        of_part(times, 0.5), of_part(times, 0.9), max(times, default=0.0)), flush=True)


def main():
    ap = argparse.ArgumentParser(description=__doc__, formatter_class=argparse.RawDescriptionHelpFormatter)
    ap.add_argument("program")
    ap.add_argument("--checker", metavar="FLOWCHECK")
    ap.add_argument("--nodes", type=int)
    ap.add_argument("--family", default="")
    ap.add_argument("--timeout", type=float, default=60.0)
    ap.add_argument("--list", action="store_true", help="a line for each block too")
    a = ap.parse_args()
    words = json.load(open(os.path.join(HERE, "words.json")))
    optima = json.load(open(os.path.join(HERE, "optima.json")))
    families = [f for f in sorted(words) if not a.family or f in a.family.split(",")]
    rows, wrong = [], 0
    print("%-11s %7s %4s %6s %9s %9s %9s" % ("family", "decided", "of", "wrong", "median s", "90th s", "worst s"))
    with tempfile.TemporaryDirectory() as folder:
        graph_file, report_file = os.path.join(folder, "x.graph"), os.path.join(folder, "x.report")
        for family in families:
            part = []
            for block in blocks_of(open(os.path.join(HERE, "open", family + ".graph")).read()):
                name = block[0].lstrip("#").strip()
                given, known = words[family][name], optima[family][name]
                k = int(given[3]) if "--paths" in given else None
                with open(graph_file, "w") as f:
                    f.write("\n".join(block) + "\n")
                command = shlex.split(a.program) + given
                if a.nodes is not None:
                    command += ["--nodes", str(a.nodes)]
                out, status, seconds = run(command + [graph_file], a.timeout)
                what, bad, report = "time", [], {}
                if out is not None:
                    try:
                        report = read_report(out)
                        what = "refused" if "refused" in report else report.get("mark", "status %s" % status)
                        if status in (0, 1):
                            bad = faults_of(Graph(block, "interval" in given), report, known, k)
                    except (ValueError, IndexError, KeyError) as error:
                        bad = ["an unreadable report: %r" % error]
                    if a.checker and status in (0, 1):
                        with open(report_file, "w") as f:
                            f.write(out)
                        said = run(shlex.split(a.checker) + [graph_file, report_file], 10 * a.timeout)[0]
                        if said is None or said.strip() != "graph 1 yes":
                            bad.append("the checker says %r" % (said or "nothing in time").strip())
                for text in bad:
                    print("WRONG %s: %s" % (name, text), file=sys.stderr, flush=True)
                decided = status in (0, 1) and what in ("optimal", "infeasible")
                part.append((decided, bool(bad), seconds))
                if a.list:
                    print("  %-26s %-10s %s..%s known %s  cert %-12s %.3f" % (
                        name, what, report.get("lower"), report.get("upper"), known["value"],
                        report.get("cert", "-"), seconds), flush=True)
            line_of(family, part)
            rows += part
    line_of("all", rows)
    sys.exit(1 if any(row[1] for row in rows) else 0)


if __name__ == "__main__":
    main()
