"""Reports that are changed in one place, against all answers there are.

    check_edits.py PROGRAM CHECKER [NUMBER [SEED]]

makes so many graphs of at most six edges for each model, has PROGRAM report on them, changes each report in one place after the other (each field of
each line to other numbers, names and words; each line left out, doubled, and exchanged with the next), and gives the changed ones to CHECKER.
Each unchanged report has to get a yes, and of each changed one that gets a yes all that it says is compared with every weighted path list of the
graph. It prints, for each model, how many changed reports got which answer, and ends with status 1 at the first yes that is wrong.
"""
import itertools
import random
import subprocess
import sys
import tempfile
from pathlib import Path

from check_models import contains, number, some_graph, text_of

WORDS = "0", "1", "2", "3", "none", "optimal", "bounds", "infeasible", "gap", "step", "x"


def safe_runs(graph):
    """The maximal runs that each decomposition has within one of its paths, rising by edge list."""
    whole = [a for a in graph.answers() if graph.error(a) == 0]
    runs = {p[i:j] for p in graph.paths for i in range(len(p)) for j in range(i + 1, len(p) + 1)}
    safe = [run for run in runs if all(any(contains(p, run) for p, _ in a) for a in whole)]
    return sorted(run for run in safe if not any(len(other) > len(run) and contains(other, run) for other in safe))


def run_in(graph, names):
    return tuple(graph.ends.index(pair) for pair in zip(names, names[1:]))


def is_true(graph, model, k, lines):
    """Whether all that the lines of a report say is true: paths, bounds, mark and safe runs."""
    mark, lower, upper = lines[2].split()[1], number(lines[3].split()[1]), number(lines[4].split()[1])
    paths = []
    for line in lines[5:]:
        fields = line.split()
        if fields[0] != "path":
            break
        paths.append((run_in(graph, fields[2:]), int(fields[1])))

    def meets(answer):
        return graph.covers(answer) and (len(answer) <= k if model == "abs" else graph.error(answer) == 0)

    def value(answer):
        return graph.error(answer) if model == "abs" else len(answer)

    best = min((value(a) for a in graph.answers() if meets(a)), default=None)
    listed = [run_in(graph, line.split()[1:]) for line in lines if line.startswith("run ")]
    if any(line.startswith("safe ") for line in lines) and listed != safe_runs(graph):
        return False
    if upper is None:
        if paths:
            return False
    elif not (meets(paths) and value(paths) == upper and all(p in graph.paths for p, _ in paths)):
        return False
    if mark == "optimal":
        return lower == upper == best
    if mark == "infeasible":
        return best is None
    return best is None or lower <= best


def changed(draw, lines, names):
    """The lines, changed in one place in each way there is; the line `end` stays, since it ends the text."""
    for at, line in enumerate(lines[:-1]):
        fields = line.split(" ")
        for f, field in enumerate(fields):
            others = set(WORDS) | set(names)
            if field.isdigit():
                others |= {str(max(0, int(field) - 1)), str(int(field) + 1)}
            for other in draw.sample(sorted(others - {field}), 6):
                yield lines[:at] + [" ".join(fields[:f] + [other] + fields[f + 1 :])] + lines[at + 1 :]
            yield lines[:at] + [" ".join(fields[:f] + fields[f + 1 :])] + lines[at + 1 :]
        yield lines[:at] + lines[at + 1 :]
        yield lines[:at] + [line, line] + lines[at + 1 :]
        if at + 2 < len(lines):
            yield lines[:at] + [lines[at + 1], line] + lines[at + 2 :]


def reports_on(program, words, text):
    out = subprocess.run([program, *words], input=text, capture_output=True, text=True).stdout
    return [report + "\nend" for report in out.split("\nend\n")[:-1]]


def text_at(place, n, lines):
    """The text of the lines, with the number of their place where they begin with that of the graph."""
    first = f"graph {place} {n}" if lines[0] == f"graph {n + 1} {n}" else lines[0]
    return "\n".join([first, *lines[1:]]) + "\n"


def trial(draw, program, checker, model, k, nodes, count):
    graphs = [some_graph(draw, model) for _ in range(count)]
    words = ["--model", model, "--nodes", str(nodes)] + (["--paths", str(k)] if model == "abs" else ["--safe"] if model == "exact" else [])
    found = reports_on(program, words, "".join(text_of(g, model, n) for n, g in enumerate(graphs)))
    assert len(found) == count, "a report for each graph"
    asked = []
    for n, (graph, report) in enumerate(zip(graphs, found)):
        lines = report.split("\n")
        asked.append((n, graph, lines, True))
        if len(lines) < 60:
            asked += [(n, graph, variant, False) for variant in changed(draw, lines, graph.vertices)]
    text = "".join(text_of(graph, model, n) for n, graph, _, _ in asked)
    with tempfile.TemporaryDirectory() as folder:
        graph_file, report_file = Path(folder, "graphs"), Path(folder, "reports")
        graph_file.write_text(text)
        report_file.write_text("".join(text_at(place, n, lines) for place, (n, _, lines, _) in enumerate(asked, 1)))
        out = subprocess.run([checker, graph_file, report_file], capture_output=True, text=True).stdout.splitlines()
    assert len(out) == len(asked), (len(out), len(asked), out[-1:])
    counts = {}
    for place, (line, (n, graph, variant, is_whole)) in enumerate(zip(out, asked), 1):
        _, index, answer, *_ = line.split()
        assert int(index) == place, line
        right = answer == "yes" if is_whole else answer != "yes" or is_true(graph, model, k, variant)
        if not right:
            sys.exit("\n".join([line, text_of(graph, model, n), *variant]))
        counts[answer] = counts.get(answer, 0) + 1
    return counts


def main(program, checker, count=20, seed=1):
    draw = random.Random(int(seed))
    for model, k, nodes in itertools.product(("exact", "interval", "abs"), (0, 1, 2), (1, 40)):
        if model == "abs" or k == 0:
            counts = trial(draw, program, checker, model, k, nodes, int(count))
            print(model, k, nodes, *(f"{answer} {times}" for answer, times in sorted(counts.items())))


if __name__ == "__main__":
    if len(sys.argv) < 3:
        sys.exit(__doc__)
    main(*sys.argv[1:])
