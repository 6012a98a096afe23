#!/usr/bin/env python3
"""Large graphs, and what they cost.

    large.py write FOLDER [OPTION ..]                   writes a file for each graph, and prints how flowpaths is called on it
    large.py measure FLOWPATHS FLOWCHECK [OPTION ..]    runs both programs on each graph, and prints two tables in Markdown

A graph is made of hidden paths with weights, so it has a decomposition into that many, or into fewer. The same words give the same bytes.
Families:

    chain         one path over all edges
    star          all edges out of one vertex
    grid          twice as many rows as columns, with ways down and to the right; 64 by 32 vertices where there are 4,096 edges
    hidden40      40 paths over layers of vertices, each through one vertex of each layer, drawn anew
    hidden300     300 such paths
    hidden900     900 such paths, which often meet where edges are few
    timetable     stations by times: trains ride up and down a line of stations, or wait; all leave one depot and end in another
    hub           half of the edges into one vertex, and half out of it

A graph has as many edges as are asked for, or up to some hundreds fewer where the family has no such number. Its constraints are runs of its hidden
paths, so these meet them. In the model interval the range of an edge is up to a tenth of its weight to either side. In the model abs one weight in 50 is
wrong by up to a tenth, K is the number of hidden paths and at most 64, and constraints are had only where all hidden paths may be.

Options, each a list with commas:

    --family F     families; all where nothing is said
    --edges E      numbers of edges; 256,1024,2048,4096
    --rules R      numbers of constraints; 0,256
    --model M      models; exact,interval,abs
    --nodes N      tokens of each search: a run for each; the program's own number

and for `measure`

    --safe         list the maximal safe runs in the model exact
    --timeout S    seconds of the clock after which a run is ended; 600

In the first table seconds are of processor time, so a busy machine makes no great difference, and peak memory is what the system notes of the program
itself (VmHWM), looked at two thousand times a second: that of a run of a few milliseconds may be too low. Beside each report stand the seconds of the
checker and its answer. The second table has the program's seconds by the number of edges. The status is 1 where a run fails or takes too long, where the
checker says anything but yes, or where a bound leaves out the hidden paths; each of these is a line on standard error too.
"""
import argparse
import os
import random
import subprocess
import sys
import tempfile
import time
from collections import namedtuple
from itertools import product
from math import isqrt

from measure import peak_of

SIZES = "256,1024,2048,4096"
MODELS = "exact,interval,abs"
MOST_PATHS = 64
FIRST_TABLE = "family", "edges", "constraints", "hidden paths", "model", "tokens", "mark", "lower", "upper", "seconds", "MB", "seconds to check", "checker"

Graph = namedtuple("Graph", "family size paths weights asked rules model cap")
Run = namedtuple("Run", "output status seconds peak")


def chain_paths(draw, edges):
    return [(draw.randint(1, 1000), [f"v{number}" for number in range(edges + 1)])]


def star_paths(draw, edges):
    return [(draw.randint(1, 1000), ["s", f"v{number}"]) for number in range(edges)]


def hub_paths(draw, edges):
    """A path for each edge, shuffled, and half as many more."""
    before = [f"a{number}" for number in range(edges // 2)]
    behind = [f"b{number}" for number in range(edges // 2)]
    draw.shuffle(behind)
    pairs = list(zip(before, behind)) + [(draw.choice(before), draw.choice(behind)) for _ in range(edges // 4)]
    return [(draw.randint(1, 1000), [tail, "hub", head]) for tail, head in pairs]


def hidden_paths(count):
    """Paths over layers, as many layers as the edges allow: the vertices of a layer are such that about two thirds of the edges between two are drawn."""
    def paths(draw, edges):
        across = isqrt(min(count, edges // 4))
        spots, used = [[draw.randrange(across) for _ in range(count)]], 0
        while True:
            spots.append([draw.randrange(across) for _ in range(count)])
            used += len(set(zip(*spots[-2:])))
            if used > edges:
                break
        walks = zip(*spots[:-1])
        return [(draw.randint(1, 1000), [f"v{layer}_{spot}" for layer, spot in enumerate(walk)]) for walk in walks]
    return paths


def grid_paths(draw, edges):
    """A path by chance from corner to corner through each edge that no path before it has."""
    columns = max(width for width in range(1, edges) if 4 * width * width - 3 * width <= edges)
    spots = list(product(range(2 * columns), range(columns)))
    ends, paths, used = (2 * columns - 1, columns - 1), [], set()
    for row, column in spots:
        for head in ((row + 1, column), (row, column + 1)):
            if head <= ends and head[1] < columns and ((row, column), head) not in used:
                walk = way(draw, (0, 0), (row, column)) + way(draw, head, ends)
                used.update(zip(walk, walk[1:]))
                paths.append((draw.randint(1, 1000), [f"r{down}c{right}" for down, right in walk]))
    return paths


def way(draw, begin, end):
    """The spots of a way by chance down and to the right."""
    moves = [(1, 0)] * (end[0] - begin[0]) + [(0, 1)] * (end[1] - begin[1])
    draw.shuffle(moves)
    spots = [begin]
    for down, right in moves:
        spots.append((spots[-1][0] + down, spots[-1][1] + right))
    return spots


def timetable_paths(draw, edges):
    """Trains of 1 to 12 wagons, until one has more new edges than may be; at most as many as edges."""
    times = isqrt(edges)
    paths, used = [], set()
    for _ in range(edges):
        train = train_of(draw, times * 2 // 5 + 1, times)
        used.update(zip(train, train[1:]))
        if len(used) > edges:
            break
        paths.append((draw.randint(1, 12), train))
    return paths


def train_of(draw, stations, times):
    """It leaves in the first quarter of the day and ends in the last, and turns where the line of stations ends."""
    station, ahead = draw.randrange(stations), draw.choice((1, -1))
    train = ["morning"]
    for now in range(draw.randrange(times // 4), draw.randrange(times - times // 4, times)):
        train.append(f"s{station}t{now}")
        if not 0 <= station + ahead < stations:
            ahead = -ahead
        if draw.randrange(4):
            station += ahead
    return train + ["evening"]


FAMILIES = {
    "chain": chain_paths,
    "star": star_paths,
    "grid": grid_paths,
    "hidden40": hidden_paths(40),
    "hidden300": hidden_paths(300),
    "hidden900": hidden_paths(900),
    "timetable": timetable_paths,
    "hub": hub_paths,
}


def weights_of(paths):
    """The weight of each edge, edges in the order in which paths came to them."""
    weights = {}
    for weight, path in paths:
        for edge in zip(path, path[1:]):
            weights[edge] = weights.get(edge, 0) + weight
    return weights


def rules_of(draw, paths, count):
    """Different runs of paths, short ones more often; fewer than asked for where there are no more to be had."""
    rules = {}
    for _ in range(100 * count):
        if len(rules) == count:
            break
        _, path = draw.choice(paths)
        edges = draw.randint(1, draw.randint(1, len(path) - 1))
        begin = draw.randrange(len(path) - edges)
        rules[tuple(path[begin : begin + edges + 1])] = True
    return list(rules)


def ranges_of(draw, weights):
    return {edge: (weight - draw.randint(0, weight // 10), weight + draw.randint(0, weight // 10)) for edge, weight in weights.items()}


def disturbed(draw, weights):
    wrong = dict(weights)
    for edge in draw.sample(sorted(weights), len(weights) // 50 + 1):
        wrong[edge] = max(0, weights[edge] + draw.choice((1, -1)) * draw.randint(1, weights[edge] // 10 + 1))
    return wrong


def graphs_of(options):
    """The graphs that are asked for. Those of one family and number of edges are made of the same paths."""
    for family, size in product(options.family, options.edges):
        paths = FAMILIES[family](random.Random(f"{family} {size}"), size)
        weights = weights_of(paths)
        for count, model in product(options.rules, options.model):
            cap = min(MOST_PATHS, len(paths)) if model == "abs" else None
            if not (count and cap and cap < len(paths)):
                rules = rules_of(random.Random(f"{family} {size} rules"), paths, count)
                yield Graph(family, size, paths, weights, count, rules, model, cap)


def words_of(graph):
    return ["--model", graph.model] + (["--paths", str(graph.cap)] if graph.cap else [])


def given_of(graph):
    """The numbers of each edge that a program is given."""
    draw = random.Random(f"{graph.family} {graph.size} {graph.model}")
    if graph.model == "interval":
        return ranges_of(draw, graph.weights)
    weights = disturbed(draw, graph.weights) if graph.model == "abs" else graph.weights
    return {edge: (weight,) for edge, weight in weights.items()}


def hidden_value(graph, given):
    """What is known to be enough: the number of hidden paths, or with a cap their error; none where they are more than the cap."""
    if graph.cap is None:
        return len(graph.paths)
    if graph.cap < len(graph.paths):
        return None
    return sum(abs(weight - graph.weights[edge]) for edge, (weight,) in given.items())


def text_of(graph, given):
    vertices = len({name for edge in given for name in edge})
    lines = [f"# {graph.family} {len(given)} edges, {len(graph.rules)} constraints", "# flowpaths " + " ".join(words_of(graph))]
    lines += [" ".join(("#S",) + rule) for rule in graph.rules] + [str(vertices)]
    lines += [" ".join(edge + tuple(map(str, numbers))) for edge, numbers in given.items()]
    return "\n".join(lines) + "\n"


def write(options):
    os.makedirs(options.folder, exist_ok=True)
    for graph in graphs_of(options):
        file = os.path.join(options.folder, f"{graph.family}_{graph.size}_{graph.asked}_{graph.model}.graph")
        with open(file, "w", encoding="ascii") as out:
            out.write(text_of(graph, given_of(graph)))
        for nodes in options.nodes:
            print("flowpaths", *words_of(graph), *(["--nodes", str(nodes)] if nodes else []), file)


def run(command, target, limit):
    """Runs a command with a file as its output. The status is none where it was ended."""
    with open(target, "wb") as out:
        process = subprocess.Popen(command, stdin=subprocess.DEVNULL, stdout=out)
        latest, peak, ended, done = time.monotonic() + limit, 0, False, 0
        while not done:
            peak = max(peak, peak_of(process.pid))
            if time.monotonic() > latest and not ended:
                process.kill()
                ended = True
            time.sleep(0.0005)
            done, status, used = os.wait4(process.pid, os.WNOHANG)
        process.returncode = os.waitstatus_to_exitcode(status)
    with open(target, encoding="ascii") as output:
        return Run(output.read(), None if ended else process.returncode, used.ru_utime + used.ru_stime, peak)


def fields_of(report):
    """The mark of a report and its bounds, as words."""
    lines = dict(line.partition(" ")[::2] for line in report.splitlines())
    return ("refused " + lines["refused"] if "refused" in lines else lines.get("mark", "none")), lines.get("lower", "none"), lines.get("upper", "none")


def faults_of(solved, checked, hidden):
    mark, lower, _ = fields_of(solved.output)
    if solved.status not in (0, 1):
        yield "no end in time" if solved.status is None else f"status {solved.status}, {mark}"
    elif (checked.status, checked.output) != (0, "graph 1 yes\n"):
        yield f"the checker has status {checked.status}, and says {checked.output!r}"
    elif hidden is not None and (mark == "infeasible" or int(lower) > hidden):
        yield f"{mark} with lower {lower}, but the hidden paths have {hidden}"


def row_of(cells):
    print("|", " | ".join(f"{cell:,}" if isinstance(cell, int) else cell for cell in cells), "|", flush=True)


def heading(cells):
    row_of(cells)
    print("|" + "---|" * len(cells))


def measured(graph, nodes, options, folder):
    """Prints a row for a run, and tells its seconds and its faults."""
    given = given_of(graph)
    source, report, answer = (os.path.join(folder, name) for name in ("one.graph", "one.report", "one.answer"))
    with open(source, "w", encoding="ascii") as out:
        out.write(text_of(graph, given))
    words = words_of(graph) + (["--nodes", str(nodes)] if nodes else []) + (["--safe"] if options.safe and graph.model == "exact" else [])
    solved = run([options.flowpaths, *words, source], report, options.timeout)
    checked = run([options.flowcheck, source, report], answer, options.timeout)
    model = f"abs {graph.cap}" if graph.cap else graph.model
    said = checked.output.strip().removeprefix("graph 1 ") or f"status {checked.status}"
    row_of([graph.family, len(given), len(graph.rules), len(graph.paths), model, nodes or "default", *fields_of(solved.output),
            f"{solved.seconds:.3f}", f"{solved.peak / 1000:.1f}", f"{checked.seconds:.3f}", said])
    return solved.seconds, list(faults_of(solved, checked, hidden_value(graph, given)))


def growth(seconds, sizes):
    """The second table: the seconds of each kind of graph, by the number of edges asked for."""
    print()
    heading(["family", "constraints", "model", "tokens", *(f"{size:,} edges" for size in sizes)])
    for family, rules, model, nodes in dict.fromkeys(kind for kind, _ in seconds):
        cells = [f"{seconds[(family, rules, model, nodes), size]:.3f}" if ((family, rules, model, nodes), size) in seconds else "" for size in sizes]
        row_of([family, rules, model, nodes or "default", *cells])


def measure(options):
    seconds, faults = {}, 0
    heading(FIRST_TABLE)
    with tempfile.TemporaryDirectory() as folder:
        for graph, nodes in product(graphs_of(options), options.nodes):
            took, wrong = measured(graph, nodes, options, folder)
            seconds[(graph.family, graph.asked, graph.model, nodes), graph.size] = took
            for fault in wrong:
                print(f"{graph.family} {graph.size} {graph.asked} {graph.model} {nodes or 'default'}: {fault}", file=sys.stderr)
            faults += len(wrong)
    growth(seconds, options.edges)
    return 1 if faults else 0


def listed(known=None):
    """A reader of lists with commas: of known words, or of whole numbers."""
    def read(text):
        words = text.split(",")
        if known and not set(words) <= set(known):
            raise argparse.ArgumentTypeError(f"one of {', '.join(known)}")
        return words if known else [int(word) for word in words]
    return read


def arguments():
    asked = argparse.ArgumentParser(add_help=False)
    asked.add_argument("--family", type=listed(FAMILIES), default=list(FAMILIES))
    asked.add_argument("--edges", type=listed(), default=listed()(SIZES))
    asked.add_argument("--rules", type=listed(), default=[0, 256])
    asked.add_argument("--model", type=listed(MODELS.split(",")), default=MODELS.split(","))
    asked.add_argument("--nodes", type=listed(), default=[None])
    whole = argparse.ArgumentParser(description=__doc__, formatter_class=argparse.RawDescriptionHelpFormatter)
    modes = whole.add_subparsers(required=True, dest="mode")
    writing = modes.add_parser("write", parents=[asked])
    writing.add_argument("folder")
    measuring = modes.add_parser("measure", parents=[asked])
    measuring.add_argument("flowpaths")
    measuring.add_argument("flowcheck")
    measuring.add_argument("--safe", action="store_true")
    measuring.add_argument("--timeout", type=float, default=600)
    return whole.parse_args()


def main():
    options = arguments()
    if min(options.edges) < 20:
        sys.exit("large.py: a graph has at least 20 edges")
    return write(options) if options.mode == "write" else measure(options)


if __name__ == "__main__":
    sys.exit(main())
