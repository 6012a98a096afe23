"""Small graphs in all three models, with constraints, against all answers there are.

    check_models.py PROGRAM [NUMBER [SEED]]

makes so many graphs of at most six edges, runs the program on them, and compares each report with the best of all weighted path lists, found by
trying every one; it replays trees and trails from what docs/FORMATS.md says of boxes, and looks at antichains, cuts, crowds and booked paths. It
knows the formats and nothing of the program. Nothing is written where all is right, but for a line of counts.
"""

import itertools
import random
import subprocess
import sys

MOST = 3  # the greatest weight of an edge


class Graph:
    def __init__(self, ends, ranges, runs):
        self.ends, self.ranges, self.runs = ends, ranges, runs
        tails, heads = {u for u, _ in ends}, {v for _, v in ends}
        self.vertices = list(dict.fromkeys(v for pair in ends for v in pair))
        self.sources, self.sinks = tails - heads, heads - tails
        self.paths = []
        for e, (u, _) in enumerate(ends):
            if u in self.sources:
                self.extend([e])
        self.cap = max([1] + [hi for _, hi in ranges])

    def extend(self, walk):
        head = self.ends[walk[-1]][1]
        if head in self.sinks:
            self.paths.append(tuple(walk))
        for e, (u, _) in enumerate(self.ends):
            if u == head:
                self.extend(walk + [e])

    def sums(self, answer):
        return [sum(w for p, w in answer if e in p) for e in range(len(self.ends))]

    def error_of(self, sums):
        return sum(max(0, lo - x) + max(0, x - hi) for (lo, hi), x in zip(self.ranges, sums))

    def error(self, answer):
        return self.error_of(self.sums(answer))

    def covers(self, answer):
        return all(any(contains(p, run) for p, _ in answer) for run in self.runs)

    def answers(self):
        """Every answer without a path twice, and without more weight on a path than the cap."""
        for weights in itertools.product(range(self.cap + 1), repeat=len(self.paths)):
            yield [(p, w) for p, w in zip(self.paths, weights) if w > 0]

    def booked(self):
        paths = []
        for run in self.runs:
            if any(contains(p, run) for p in paths):
                continue
            path = list(run)
            while self.ends[path[0]][0] not in self.sources:
                path.insert(0, self.greatest(1, self.ends[path[0]][0]))
            while self.ends[path[-1]][1] not in self.sinks:
                path.append(self.greatest(0, self.ends[path[-1]][1]))
            paths.append(tuple(path))
        return paths

    def greatest(self, side, vertex):
        at = [e for e, pair in enumerate(self.ends) if pair[side] == vertex]
        return max(at, key=lambda e: (self.ranges[e][1], -e))


def contains(path, run):
    return any(path[k : k + len(run)] == tuple(run) for k in range(len(path)))


def apart(graph, one, other):
    return not any(contains(p, one) and contains(p, other) for p in graph.paths)


# ---- boxes

def begins(graph, walk):
    return [p for p in graph.paths if p[: len(walk)] == tuple(walk)]


def bounds(box):
    return (
        [max(lo for lo, _, _ in box[k:]) for k in range(len(box))],
        [min(hi for _, hi, _ in box[: k + 1]) for k in range(len(box))],
    )


def gap(graph, box):
    lows, highs = bounds(box)
    total = 0
    for e, (lo, hi) in enumerate(graph.ranges):
        least = sum(low for (_, _, walk), low in zip(box, lows) if e in walk)
        most = sum(high for (_, _, walk), high in zip(box, highs) if any(e in p for p in begins(graph, walk)))
        total += max(0, least - hi, lo - most)
    return total


def missed(graph, box, c):
    _, highs = bounds(box)
    return not any(high >= 1 and any(contains(p, graph.runs[c]) for p in begins(graph, walk)) for (_, _, walk), high in zip(box, highs))


def legal(graph, limit, box, token):
    kind, n = token
    if kind == "gap":
        return limit is not None and gap(graph, box) > limit
    if kind == "miss":
        return n < len(graph.runs) and missed(graph, box, n)
    lows, highs = bounds(box)
    if n >= len(box) or not graph.ends or legal(graph, limit, box, ("gap", 0)) or any(missed(graph, box, c) for c in range(len(graph.runs))):
        return False
    if kind == "split":
        return lows[n] < highs[n]
    walk = box[n][2]
    return highs[n] >= 1 and not (walk and graph.ends[walk[-1]][1] in graph.sinks)


def after(graph, box, token):
    kind, n = token
    if kind in ("gap", "miss"):
        return []
    lo, hi, walk = box[n]
    if kind == "split":
        lows, highs = bounds(box)
        middle = (lows[n] + highs[n]) // 2
        halves = [(lo, middle, walk), (middle + 1, hi, walk)]
        return [box[:n] + [slot] + box[n + 1 :] for slot in halves]
    heads = graph.sources if not walk else {graph.ends[walk[-1]][1]}
    return [box[:n] + [(lo, hi, walk + (e,))] + box[n + 1 :] for e, (u, _) in enumerate(graph.ends) if u in heads]


def rule_token(graph, limit, box):
    tokens = [("gap", 0)] + [("miss", c) for c in range(len(graph.runs))]
    tokens += [(kind, n) for kind in ("step", "split") for n in range(len(box))]
    return next((t for t in tokens if legal(graph, limit, box, t)), None)


def replay(graph, slots, limit, tokens, by_rule):
    """The boxes that the tokens leave; every token must be legal, or the rule token of the first box."""
    boxes = [[(0, graph.cap, ())] * slots]
    for token in tokens:
        assert boxes and legal(graph, limit, boxes[0], token), "a token that is not legal"
        assert not by_rule or token == rule_token(graph, limit, boxes[0]), "another token than the rule's"
        boxes = after(graph, boxes[0], token) + boxes[1:]
    return boxes


# ---- reports

def tokens_in(lines):
    return [(f[0], int(f[1]) - 1 if len(f) > 1 else 0) for f in (line.split() for line in lines)]


def number(text):
    return None if text == "none" else int(text)


def compare(graph, model, k, nodes, report):
    lines = iter(report)
    mark = next(lines).split()[1]
    lower, upper = number(next(lines).split()[1]), number(next(lines).split()[1])
    line, paths = next(lines), []
    while line.startswith("path "):
        fields = line.split()
        paths.append((tuple(graph.ends.index(pair) for pair in zip(fields[2:], fields[3:])), int(fields[1])))
        line = next(lines)

    def meets(answer):
        return graph.covers(answer) and (len(answer) <= k if model == "abs" else graph.error(answer) == 0)

    def value(answer):
        return graph.error(answer) if model == "abs" else len(answer)

    values = [value(a) for a in graph.answers() if meets(a)]
    best = min(values, default=None)
    booked = graph.booked()
    units = [sum(e in p for p in booked) for e in range(len(graph.ends))]
    if upper is None:
        assert not paths, "paths without upper"
        fits = {
            "exact": all(u <= hi for u, (_, hi) in zip(units, graph.ranges)),
            "interval": any(graph.error(a) == 0 and all(x >= u for x, u in zip(graph.sums(a), units)) for a in graph.answers()),
            "abs": len(booked) <= k,
        }[model]
        assert not fits, "upper is none though the booked paths fit"
    else:
        assert meets(paths) and value(paths) == upper and all(p in graph.paths for p, _ in paths), "the paths"
        if model == "abs" and len(booked) <= k:
            assert upper <= graph.error([(p, 1) for p in booked]), "worse than the booked paths"
    if mark == "optimal":
        assert lower == upper == best, ("optimal", lower, upper, best)
    elif mark == "infeasible":
        assert best is None and lower is None and upper is None, "infeasible"
    else:
        assert lower is not None and (best is None or lower <= best) and (upper is None or lower < upper), "bounds"
    cert = line.split()[1:]
    check_cert(graph, model, k, nodes, mark, lower, cert, lines)
    line = next(lines)
    if mark == "bounds":
        _, slots, limit, count = line.split()
        tokens = tokens_in([next(lines) for _ in range(int(count))])
        if model == "abs":
            asked = (k, None if upper is None else (lower + upper) // 2)
        else:
            asked = (len(graph.ends) + len(graph.runs) if upper is None else upper - 1, 0)
        assert (int(slots), number(limit)) == asked and len(tokens) == nodes, "the trail's decision"
        boxes = replay(graph, *asked, tokens, True)
        assert boxes and rule_token(graph, asked[1], boxes[0]), "a trail that ends"
        line = next(lines)
    assert line == "end", line
    return mark, cert[0]


def check_cert(graph, model, k, nodes, mark, lower, cert, lines):
    kind = cert[0]
    wide = max(
        len(es)
        for n in range(len(graph.ends) + 1)
        for es in itertools.combinations([e for e, (lo, _) in enumerate(graph.ranges) if lo >= 1], n)
        if all(apart(graph, [d], [e]) for d, e in itertools.combinations(es, 2))
    )
    if mark != "infeasible" and model != "abs":
        assert lower >= wide, "less than the width"
        assert (kind == "wide") == (lower == wide > 0), "the kind of the certificate"
    if kind == "none":
        assert lower == 0
    elif kind == "wide":
        es = [graph.ends.index(tuple(next(lines).split()[1:])) for _ in range(int(cert[1]))]
        assert len(es) == lower and es == sorted(es) and all(graph.ranges[e][0] >= 1 for e in es)
        assert all(apart(graph, [d], [e]) for d, e in itertools.combinations(es, 2)), "an antichain"
    elif kind == "tree":
        slots, limit = int(cert[1]), number(cert[2])
        tokens = tokens_in([next(lines) for _ in range(int(cert[3]))])
        if mark == "infeasible":
            asked = (k, None) if model == "abs" else (len(graph.ends) + len(graph.runs), 0)
        else:
            asked = (k, lower - 1) if model == "abs" else (lower - 1, 0)
        assert (slots, limit) == asked and len(tokens) <= nodes, "the tree's decision"
        assert not replay(graph, slots, limit, tokens, False), "a tree that leaves boxes"
    elif kind == "cut":
        inside = {next(lines).split()[1] for _ in range(int(cert[2]))}
        entering = [r for (u, v), r in zip(graph.ends, graph.ranges) if u not in inside and v in inside]
        leaving = [r for (u, v), r in zip(graph.ends, graph.ranges) if u in inside and v not in inside]
        must, may, ends = (entering, leaving, graph.sinks) if cert[1] == "in" else (leaving, entering, graph.sources)
        assert mark == "infeasible" and model == "interval" and not inside & ends, "a cut"
        assert sum(lo for lo, _ in must) > sum(hi for _, hi in may), "the sums of a cut"
    elif kind == "crowd":
        e = graph.ends.index((cert[1], cert[2]))
        rules = [int(next(lines).split()[1]) - 1 for _ in range(int(cert[3]))]
        assert mark == "infeasible" and model != "abs" and len(rules) > graph.ranges[e][1], "a crowd"
        assert all(e in graph.runs[c] for c in rules), "through the edge"
        assert all(apart(graph, graph.runs[c], graph.runs[d]) for c, d in itertools.combinations(rules, 2)), "apart"
    if model == "interval":
        assert (kind == "cut") == (not any(graph.error(a) == 0 for a in graph.answers())), "where a cut stands"


# ---- graphs

def some_graph(draw, model):
    """A random graph of at most six edges and six paths, and constraints among its runs."""
    while True:
        names = "abcdef"[: draw.randint(2, 6)]
        pairs = list(itertools.combinations(names, 2))
        ends = draw.sample(pairs, min(len(pairs), draw.randint(1, 6)))
        graph = Graph(ends, [(0, 0)] * len(ends), [])
        if len(graph.paths) > 5:
            continue
        if model == "exact":
            sums = graph.sums([(p, draw.randint(0, 2)) for p in graph.paths])
            ranges = [(x, x) for x in sums]
        elif model == "abs":
            ranges = [(x, x) for x in (draw.randint(0, MOST) for _ in ends)]
        else:
            ranges = [tuple(sorted((draw.randint(0, MOST), draw.randint(0, MOST)))) for _ in ends]
        if max(hi for _, hi in ranges) > MOST + 1:
            continue
        runs = []
        for _ in range(draw.choice([0, 0, 1, 2, 3])):
            path = draw.choice(graph.paths)
            i = draw.randrange(len(path))
            run = path[i : draw.randint(i, len(path) - 1) + 1]
            if run not in runs:
                runs.append(run)
        return Graph(ends, ranges, runs)


def text_of(graph, model, name):
    lines = [f"# {name}"]
    for run in graph.runs:
        lines.append("#S " + " ".join([graph.ends[run[0]][0]] + [graph.ends[e][1] for e in run]))
    lines.append(str(len(graph.vertices)))
    for (u, v), (lo, hi) in zip(graph.ends, graph.ranges):
        lines.append(f"{u} {v} {lo} {hi}" if model == "interval" else f"{u} {v} {lo}")
    return "\n".join(lines) + "\n"


def main(program, count=200, seed=1):
    draw = random.Random(int(seed))
    seen = {}
    for model, k, nodes in itertools.product(("exact", "interval", "abs"), (0, 1, 2), (1, 40, 20000)):
        if model != "abs" and k:
            continue
        graphs = [some_graph(draw, model) for _ in range(int(count))]
        words = [program, "--model", model, "--nodes", str(nodes)] + (["--paths", str(k)] if model == "abs" else [])
        text = "".join(text_of(g, model, n) for n, g in enumerate(graphs))
        out = subprocess.run(words, input=text, capture_output=True, text=True).stdout
        reports = out.split("\nend\n")
        assert len(reports) == len(graphs) + 1, "a report for each graph"
        for n, (graph, report) in enumerate(zip(graphs, reports)):
            lines = (report + "\nend").split("\n")
            try:
                assert lines[0] == f"graph {n + 1} {n}" and lines[1].split()[1] == model, lines[:2]
                kind = (model,) + compare(graph, model, k, nodes, lines[2:])
            except AssertionError:
                print(text_of(graph, model, n) + "\n".join(lines), *words[1:])
                raise
            seen[kind] = seen.get(kind, 0) + 1
    for kind, times in sorted(seen.items()):
        print(*kind, times)


if __name__ == "__main__":
    main(*sys.argv[1:])
