"""Checks the reports of accepted graphs against their graphs, apart from the program.

    check_sums.py GRAPHS REPORTS [NODES]

Each graph begins with a `#` line, has no constraint line, and is balanced, as generate.py writes them. Of each report it is
checked that number and name are the graph's, that each path leads from a source to a sink over edges of the graph, that the
weights of the paths through an edge sum to its weight, that there is at most one path for each edge of positive weight, that
`upper` is their number, and that they stand by falling weight, those of equal weight by rising edge list; that of the edges of a
wide certificate no two lie on one path and `lower` is their number; that the tokens of a tree refute one path fewer; that the mark is
`optimal` exactly where both bounds are equal; and that else the trail is the rule list of one path fewer, with NODES tokens (20,000 where
it is left out), and leaves a box at which some token is legal. Where safe runs are listed, they are the runs of positive excess that no other such run contains.
"""
import sys

from boxes import Decision


def lines_of(path):
    with open(path, "rb") as file:
        for line in file:
            yield line.rstrip(b"\n")


def graphs_of(path):
    """For each graph its name and its edges, as pairs of names with a weight, in file order."""
    name, count, edges = None, False, {}
    for line in lines_of(path):
        fields = line.split()
        if not fields:
            continue
        if fields[0].startswith(b"#"):
            if count:
                yield name, edges
                name, count, edges = None, False, {}
            if name is None:
                name = line.strip()[1:].strip()
        elif not count:
            count = True
        else:
            tail, head, weight = fields
            edges[tail, head] = int(weight)
    if count:
        yield name, edges


def reports_of(path):
    report = []
    for line in lines_of(path):
        report.append(line)
        if line == b"end":
            yield report
            report = []
    if report:
        yield report


def first_fault(number, name, edges, report, nodes):
    """What is wrong with a report, or None."""
    if len(report) < 7:
        return "it is too short"
    if report[0] != b" ".join([b"graph", b"%d" % number] + [name] * bool(name)):
        return "the number or the name is another"
    if report[1] != b"model exact" or report[-1] != b"end":
        return "the model or the end is another"
    paths = [line for line in report if line.startswith(b"path ")]
    if report[4] != b"upper %d" % len(paths):
        return "upper is not the number of paths"
    lower = int(report[3].split(b" ")[1])
    if report[2] != (b"mark optimal" if lower == len(paths) else b"mark bounds") or lower > len(paths):
        return "the mark is another"
    shown = report[5 + len(paths) : -1]
    listed = next((k for k, line in enumerate(shown) if line.startswith(b"safe ")), len(shown))
    shown, runs = shown[:listed], shown[listed:]
    trail = next((k for k, line in enumerate(shown) if line.startswith(b"trail ")), len(shown))
    return (
        first_path_fault(edges, report[5 : 5 + len(paths)])
        or first_cert_fault(edges, lower, shown[:trail], nodes)
        or first_trail_fault(edges, lower, len(paths), shown[trail:], nodes)
        or first_safe_fault(edges, runs)
    )


def tokens_in(lines):
    """Token lines as pairs of a word and a slot, counted from 0."""
    tokens = []
    for line in lines:
        fields = line.split(b" ")
        tokens.append((fields[0].decode(), int(fields[1]) - 1 if len(fields) == 2 else None))
    return tokens


def first_cert_fault(edges, lower, lines, nodes):
    """What is wrong with a certificate of a lower bound."""
    items = lines[1:]
    if lines[0] == b"cert none":
        return "a bound above 0 has no certificate" if lower or items else None
    if lines[0] == b"cert wide %d" % len(items):
        return "lower is not the number of edges listed" if lower != len(items) else first_antichain_fault(edges, items)
    if lines[0] != b"cert tree %d 0 %d" % (lower - 1, len(items)) or len(items) > nodes:
        return "the certificate is another"
    illegal, boxes, _ = Decision(edges, lower - 1, 0).replay(tokens_in(items))
    if illegal is not None:
        return f"token {illegal} of the certificate is not legal"
    return "the certificate leaves boxes" if boxes else None


def first_trail_fault(edges, lower, upper, lines, nodes):
    """What is wrong with a trail, which is there exactly where the bounds differ."""
    if lower == upper:
        return "there is a trail" if lines else None
    if len(lines) != nodes + 1 or lines[0] != b"trail %d 0 %d" % (upper - 1, nodes):
        return "the trail is another"
    decision = Decision(edges, upper - 1, 0)
    illegal, boxes, by_rule = decision.replay(tokens_in(lines[1:]))
    if illegal is not None or not by_rule:
        return "the trail is not the rule list"
    return None if boxes and decision.rule_token(boxes[-1]) else "no token is legal after the trail"


def first_safe_fault(edges, lines):
    """What is wrong with a list of safe runs: it has all runs of positive excess that no other one contains, by rising edge list."""
    if not lines:
        return None
    ends, flows, out = list(edges), list(edges.values()), {}
    for e, (tail, _) in enumerate(ends):
        out.setdefault(tail, []).append(e)
    safe, left = set(), [((e,), flow) for e, flow in enumerate(flows) if flow > 0]
    while left:
        run, excess = left.pop()
        safe.add(run)
        following = out.get(ends[run[-1]][1], [])
        total = sum(flows[e] for e in following)
        left += [(run + (e,), excess + flows[e] - total) for e in following if excess + flows[e] > total]
    parts = {run[k:n] for run in safe for k in range(len(run)) for n in range(k + 1, len(run) + 1) if n - k < len(run)}
    wanted = [b"run " + b" ".join([ends[run[0]][0]] + [ends[e][1] for e in run]) for run in sorted(safe - parts)]
    return None if lines == [b"safe %d" % len(wanted)] + wanted else "the safe runs are others"


def first_antichain_fault(edges, lines):
    """What is wrong with the edges of a certificate: each has a weight of at least 1, and no two lie on one path."""
    listed = [tuple(line.split(b" ")[1:]) for line in lines]
    if any(edges.get(edge, 0) < 1 for edge in listed):
        return "an edge of the certificate is no edge of positive weight"
    after = {}
    for tail, head in edges:
        after.setdefault(tail, []).append(head)
    for first in listed:
        reached, left = {first[1]}, [first[1]]
        while left:
            for head in after.get(left.pop(), []):
                if head not in reached:
                    reached.add(head)
                    left.append(head)
        if any(second[0] in reached for second in listed if second != first) or listed.count(first) > 1:
            return "two edges of the certificate lie on one path"
    return None


def first_path_fault(edges, lines):
    place = {edge: number for number, edge in enumerate(edges)}
    tails, heads = {tail for tail, _ in edges}, {head for _, head in edges}
    sums = dict.fromkeys(edges, 0)
    entries = []
    for line in lines:
        word, weight, *names = line.split(b" ")
        path = list(zip(names, names[1:]))
        if word != b"path" or not path or any(edge not in place for edge in path):
            return "a line is no path of the graph"
        if names[0] in heads or names[-1] in tails:
            return "a path does not lead from a source to a sink"
        if int(weight) < 1:
            return "a weight is below 1"
        for edge in path:
            sums[edge] += int(weight)
        entries.append((-int(weight), [place[edge] for edge in path]))
    if sums != edges:
        return "the weights of the paths do not sum to those of the edges"
    if len(entries) > sum(weight > 0 for weight in edges.values()):
        return "there are more paths than edges of positive weight"
    if any(first >= second for first, second in zip(entries, entries[1:])):
        return "the paths do not stand in order"
    return None


def main(graphs, reports, nodes=20000):
    left = reports_of(reports)
    number = paths = optimal = trees = 0
    for number, (name, edges) in enumerate(graphs_of(graphs), 1):
        report = next(left, [])
        fault = first_fault(number, name, edges, report, nodes)
        if fault:
            sys.exit(f"check_sums.py: report {number}: {fault}")
        paths += sum(line.startswith(b"path ") for line in report)
        optimal += report[2] == b"mark optimal"
        trees += any(line.startswith(b"cert tree ") for line in report)
    if next(left, None) is not None:
        sys.exit("check_sums.py: there are more reports than graphs")
    print(f"{number} graphs, {optimal} optimal, {trees} of them by a tree, {paths} paths: every sum, certificate and trail is right")


if __name__ == "__main__":
    if len(sys.argv) not in (3, 4):
        sys.exit(__doc__)
    main(sys.argv[1], sys.argv[2], *map(int, sys.argv[3:]))
