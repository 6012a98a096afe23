#!/usr/bin/env python3
"""The least weights of runs: whether they are the least of all decompositions, and what they cost.

    runs.py compare FLOWRUNS [COUNT [SEED]]    holds them against COUNT small random graphs, 1,000 where nothing is said
    runs.py cost FLOWRUNS [SECONDS]            runs the program on large graphs, and prints a table in Markdown

The same words give the same graphs. `compare` makes graphs of at most twelve edges with up to four runs each, and finds the least weight of each run by
a linear program over all paths, in exact fractions. Where no edge has more than 12, every decomposition in whole numbers is looked at besides. Of what
is printed it checks each line: numbers and names, the runs in order and each once, paths from a source to a sink by falling weight and rising edge list,
none twice, which sum to the weights of the edges and put as much on the run as is told, and that this is the least. It knows nothing of an excess.

`cost` takes the graphs of large.py with 4,096 edges or some fewer, and 256 runs of 1 to 100 edges of their hidden paths, or as many as there are. A run
of the program passes where each least weight is what the flow of the run's first edge leaves after all that may turn off, and where it takes less than
so many seconds of processor time, 5 where nothing is said. The last line of both is `N passed, M failed`.
"""
import os
import random
import sys
import tempfile
from fractions import Fraction

from large import FAMILIES, heading, row_of, run, weights_of

EDGES, RUNS, LONGEST, TIMEOUT = 4096, 256, 100, 600
MOST = 10**12
SMALL = 12


class Graph:
    """Edges with a flow that is balanced, all paths, and runs of them."""

    def __init__(self, ends, paths, weights, runs):
        self.ends, self.paths, self.runs = ends, paths, list(dict.fromkeys(runs))
        self.asked = runs
        self.flow = sums_of(len(ends), zip(paths, weights))

    def names(self, walk):
        return [self.ends[walk[0]][0]] + [self.ends[e][1] for e in walk]

    def text(self, name):
        return text_of(name, map(self.names, self.asked), [(*ends, weight) for ends, weight in zip(self.ends, self.flow)])


def sums_of(edges, answer):
    """What weighted paths put on each edge."""
    sums = [0] * edges
    for path, weight in answer:
        for e in path:
            sums[e] += weight
    return sums


def contains(path, run):
    return any(path[i : i + len(run)] == run for i in range(len(path)))


def walks_on(ends, walk):
    """The paths that begin with a walk, by rising edge list."""
    further = [e for e, (tail, _) in enumerate(ends) if tail == ends[walk[-1]][1]]
    return [path for e in further for path in walks_on(ends, walk + (e,))] if further else [walk]


def paths_of(ends):
    heads = {head for _, head in ends}
    return [path for e, (tail, _) in enumerate(ends) if tail not in heads for path in walks_on(ends, (e,))]


def some_graph(draw):
    """Layers of vertices, edges that mostly lead to the next one, and weights on some of their paths: small ones, or any."""
    layers = [[f"v{layer}_{spot}" for spot in range(draw.randint(1, 3))] for layer in range(draw.randint(2, 5))]
    near = [(tail, head) for tails, heads in zip(layers, layers[1:]) for tail in tails for head in heads]
    far = [(tail, head) for tails, heads in zip(layers, layers[2:]) for tail in tails for head in heads]
    pairs = near + draw.sample(far, draw.randint(0, min(3, len(far))))
    ends = draw.sample(pairs, min(len(pairs), draw.randint(4, 12)))
    paths, most = paths_of(ends), draw.choice([1, 2, MOST // 100])
    weights = [draw.choice([0, 1, 1]) * draw.randint(0, most) for _ in paths]
    return Graph(ends, paths, weights, [some_run(draw, paths) for _ in range(draw.randint(0, 4))])


def some_run(draw, paths):
    path = draw.choice(paths)
    edges = draw.randint(1, len(path))
    begin = draw.randint(0, len(path) - edges)
    return path[begin : begin + edges]


def text_of(name, rules, edges):
    lines = [f"# {name}"] + [" ".join(["#S", *rule]) for rule in rules] + ["0"]
    return "\n".join(lines + [f"{tail} {head} {weight}" for tail, head, weight in edges]) + "\n"


def decompositions(paths, left, weights=()):
    """Every list of weights of these paths that takes off just what is left of the flow."""
    if not paths:
        if not any(left):
            yield weights
        return
    later = {e for path in paths[1:] for e in path}
    low = max((left[e] for e in paths[0] if e not in later), default=0)
    for weight in range(low, min(left[e] for e in paths[0]) + 1):
        rest = [there - weight * (e in paths[0]) for e, there in enumerate(left)]
        yield from decompositions(paths[1:], rest, weights + (weight,))


def least_of_all(graph, run):
    return min(sum(w for p, w in zip(graph.paths, weights) if contains(p, run)) for weights in decompositions(graph.paths, graph.flow))


def pivot(table, row, column):
    table[row] = [number / table[row][column] for number in table[row]]
    for i, other in enumerate(table):
        if i != row and other[column]:
            table[i] = [number - other[column] * taken for number, taken in zip(other, table[row])]


def least_by_simplex(graph, run):
    """The simplex method with the first column and the first row that may be taken. The last two lines of the table are what is lacking, and the load."""
    edges, size = len(graph.ends), len(graph.paths)
    table = [[Fraction(e in path) for path in graph.paths] + [Fraction(graph.flow[e])] for e in range(edges)]
    table += [[-sum(column) for column in zip(*table)], [Fraction(contains(path, run)) for path in graph.paths] + [Fraction(0)]]
    basis = [size + e for e in range(edges)]
    while True:
        column = next((j for j in range(size) if (table[-2][j], table[-1][j]) < (0, 0)), None)
        if column is None:
            return -table[-1][size]
        rows = [i for i in range(edges) if table[i][column] > 0]
        row = min(rows, key=lambda i: (table[i][size] / table[i][column], basis[i]))
        basis[row] = column
        pivot(table, row, column)


def least_of(graph, run):
    least = least_by_simplex(graph, run)
    assert max(graph.flow) > SMALL or least == least_of_all(graph, run), "the two ways differ"
    return least


def answer_of(graph, lines):
    """The weighted paths of some lines; none where a line is no path of the graph."""
    named = {tuple(graph.names(path)): path for path in graph.paths}
    fields = [line.split(" ") for line in lines]
    if any(first != "path" or tuple(names) not in named for first, _, *names in fields):
        return None
    return [(named[tuple(names)], int(weight)) for _, weight, *names in fields]


def run_fault(graph, run, lines):
    """What is wrong with the lines of a run, or None."""
    first, least, *names = lines[0].split(" ")
    answer = answer_of(graph, lines[1:])
    if first != "least" or names != graph.names(run) or answer is None:
        return f"its lines are others: {lines}"
    if answer != sorted(answer, key=lambda entry: (-entry[1], entry[0])) or len({path for path, _ in answer}) < len(answer):
        return "its paths stand in another order, or twice"
    if sums_of(len(graph.ends), answer) != graph.flow or any(weight < 1 for _, weight in answer):
        return "its paths sum to other weights"
    if sum(weight for path, weight in answer if contains(path, run)) != int(least):
        return "its paths put another weight on it"
    return None if least_of(graph, run) == int(least) else f"{least} is told and {least_of(graph, run)} is the least"


def parts_of(lines):
    """The lines of each run."""
    starts = [i for i, line in enumerate(lines) if line.startswith("least ")] + [len(lines)]
    return [lines[begin:end] for begin, end in zip(starts, starts[1:])]


def graph_fault(number, graph, lines):
    parts = parts_of(lines[1:])
    if lines[0] != f"graph {number} g{number}" or len(parts) != len(graph.runs) or 1 + sum(map(len, parts)) != len(lines):
        return f"there are other lines: {lines}"
    faults = (run_fault(graph, run, part) for run, part in zip(graph.runs, parts))
    return next(filter(None, faults), None)


def compare(program, folder, count=1000, seed=1):
    draw = random.Random(int(seed))
    graphs = [some_graph(draw) for _ in range(int(count))]
    texts = [graph.text(f"g{number}") for number, graph in enumerate(graphs, 1)]
    done = ran(program, folder, "".join(texts))
    blocks = done.output.split("end\n")
    if done.status != 0 or len(blocks) != len(graphs) + 1:
        print(f"status {done.status}, and {len(blocks) - 1} texts for {len(graphs)} graphs")
        return 0, len(graphs)
    faults = [(texts[place], graph_fault(place + 1, graph, blocks[place].splitlines())) for place, graph in enumerate(graphs)]
    for text, fault in filter(lambda found: found[1], faults):
        print(f"{fault}\n{text}")
    failed = sum(fault is not None for _, fault in faults)
    return len(graphs) - failed, failed


def ran(program, folder, text):
    """A run of the program on a text."""
    source = os.path.join(folder, "one.graph")
    with open(source, "w", encoding="ascii") as out:
        out.write(text)
    return run([program, source], os.path.join(folder, "one.least"), TIMEOUT)


def runs_of(draw, paths):
    """Different runs of paths, as names; fewer than asked for where there are no more to be had."""
    runs = {}
    for _ in range(100 * RUNS):
        if len(runs) == RUNS:
            break
        _, path = draw.choice(paths)
        edges = draw.randint(1, min(LONGEST, len(path) - 1))
        begin = draw.randrange(len(path) - edges)
        runs[tuple(path[begin : begin + edges + 1])] = True
    return list(runs)


def least_lines(weights, runs):
    """The line of each run: its first edge less all that leaves it between its ends."""
    leaving = {}
    for (tail, _), weight in weights.items():
        leaving[tail] = leaving.get(tail, 0) + weight
    for names in runs:
        edges = list(zip(names, names[1:]))
        least = weights[edges[0]] - sum(leaving[edge[0]] - weights[edge] for edge in edges[1:])
        yield " ".join(["least", str(max(0, least)), *names])


def cost_row(program, folder, family, seconds):
    """Prints the row of a graph, and tells whether it passes."""
    draw = random.Random(f"{family} {EDGES}")
    paths = FAMILIES[family](draw, EDGES)
    weights, runs = weights_of(paths), runs_of(draw, paths)
    done = ran(program, folder, text_of(family, runs, [(*edge, weight) for edge, weight in weights.items()]))
    lines = done.output.splitlines()
    is_right = [line for line in lines if line.startswith("least ")] == list(least_lines(weights, runs))
    shown = sum(line.startswith("path ") for line in lines)
    row_of([family, len(weights), len(runs), shown, f"{len(done.output) / 1e6:.1f}", f"{done.peak / 1000:.1f}", f"{done.seconds:.3f}"])
    if done.status != 0 or not is_right:
        print(f"{family}: status {done.status}, or a least weight is another")
    return done.status == 0 and is_right and done.seconds < seconds


def cost(program, folder, seconds=5):
    heading(["family", "edges", "runs", "paths printed", "MB printed", "MB of memory", "seconds"])
    passed = [cost_row(program, folder, family, float(seconds)) for family in FAMILIES]
    print()
    return sum(passed), len(passed) - sum(passed)


def main():
    modes = {"compare": (compare, 3), "cost": (cost, 2)}
    mode, most = modes.get(sys.argv[1] if len(sys.argv) > 2 else None, (None, 0))
    if mode is None or len(sys.argv) > 2 + most:
        sys.exit(__doc__)
    with tempfile.TemporaryDirectory() as folder:
        passed, failed = mode(sys.argv[2], folder, *sys.argv[3:])
    print(f"{passed} passed, {failed} failed")
    return 1 if failed else 0


if __name__ == "__main__":
    sys.exit(main())
