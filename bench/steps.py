#!/usr/bin/env python3
"""What a token and the safe runs cost by themselves on large graphs.

    steps.py FLOWPATHS FLOWCHECK [--family F] [--edges E] [--rules R] [--nodes N] [--timeout S]

The graphs are those of large.py, whose words F, E and R are; N is the number of tokens, 20,000 where nothing is said.

A token: a report of a search that is spent has a trail of N tokens, and another one of the same graph has a trail of one. FLOWCHECK replays the trail
of each. The difference of its seconds, over N - 1, is what a token costs with the reading of its line. A family has no row where its search is not
spent. The safe runs: FLOWPATHS lists them and does not, with one token; the difference of its seconds counts. All seconds are of processor time, the
least of three runs.
"""
import argparse
import os
import sys
import tempfile

from large import FAMILIES, MODELS, SIZES, given_of, graphs_of, heading, listed, row_of, run, text_of, words_of

RUNS = 3


def least(command, target, limit):
    """The output of a command, and the least seconds of some runs; none where it does not end well."""
    runs = [run(command, target, limit) for _ in range(RUNS)]
    good = all(one.status in (0, 1) for one in runs)
    return (runs[0].output, min(one.seconds for one in runs)) if good else None


def checked(options, words, source, folder):
    """The report of a graph, and the least seconds of checking it."""
    report = os.path.join(folder, "one.report")
    solved = run([options.flowpaths, *words, source], report, options.timeout)
    if solved.status not in (0, 1):
        return None
    found = least([options.flowcheck, source, report], os.path.join(folder, "one.answer"), options.timeout)
    return found and (solved.output, found[1])


def trail_of(report):
    """The slots of the trail and its tokens; none where there is no trail."""
    for line in report.splitlines():
        if line.startswith("trail "):
            fields = line.split()
            return int(fields[1]), int(fields[3])
    return None


def token_row(options, graph, source, folder):
    words = words_of(graph)
    one = checked(options, [*words, "--nodes", "1"], source, folder)
    many = checked(options, [*words, "--nodes", str(options.nodes)], source, folder)
    trail = many and trail_of(many[0])
    if one and trail and trail_of(one[0]):
        slots, tokens = trail
        row_of([graph.family, len(graph.weights), len(graph.rules), graph.model, slots, f"{1e6 * (many[1] - one[1]) / (tokens - 1):.1f}"])


def safe_row(options, graph, source, folder):
    target = os.path.join(folder, "one.report")
    plain = least([options.flowpaths, "--nodes", "1", source], target, options.timeout)
    safe = least([options.flowpaths, "--nodes", "1", "--safe", source], target, options.timeout)
    if plain and safe:
        runs = sum(line.startswith("safe ") for line in safe[0].splitlines())
        row_of([graph.family, len(graph.weights), len(graph.rules), runs, f"{safe[1] - plain[1]:.3f}"])


def table(options, cells, row, models):
    heading(cells)
    options.model = models
    with tempfile.TemporaryDirectory() as folder:
        source = os.path.join(folder, "one.graph")
        for graph in graphs_of(options):
            with open(source, "w", encoding="ascii") as out:
                out.write(text_of(graph, given_of(graph)))
            row(options, graph, source, folder)
    print()


def main():
    asked = argparse.ArgumentParser(description=__doc__, formatter_class=argparse.RawDescriptionHelpFormatter)
    asked.add_argument("flowpaths")
    asked.add_argument("flowcheck")
    asked.add_argument("--family", type=listed(FAMILIES), default=list(FAMILIES))
    asked.add_argument("--edges", type=listed(), default=listed()(SIZES))
    asked.add_argument("--rules", type=listed(), default=[0, 256])
    asked.add_argument("--nodes", type=int, default=20_000)
    asked.add_argument("--timeout", type=float, default=600)
    options = asked.parse_args()
    table(options, ["family", "edges", "constraints", "model", "slots", "microseconds a token"], token_row, MODELS.split(","))
    table(options, ["family", "edges", "constraints", "safe runs", "seconds"], safe_row, ["exact"])
    return 0


if __name__ == "__main__":
    sys.exit(main())
