"""Graphs and reports, read apart from the programs: what docs/FORMATS.md says of them, in plain words and without haste.

`graphs_in` reads a text of graphs in a model, `texts_in` cuts a text of reports, and `answers_on` tells what a checker has to answer on both.
All texts are bytes. Vertices are names; edges and constraints are numbers counted from 0; lines count from 1.
"""
import re
from itertools import combinations, zip_longest

MOST_EDGES, MOST_RULES, LONGEST, MOST_WEIGHT, MOST_PATHS = 4096, 256, 65_536, 10**12, 64
CAUSES = "LongLine BadCount BadFields BadWeight BadRange RepeatedEdge TooManyEdges TooManyConstraints ShortConstraint Cycle UnknownEdge Unconserved"
WEIGHT = re.compile(rb"([0-9]+)(?:\.0+)?")
NUMBER = re.compile(rb"0|[1-9][0-9]*")


def fields_of(line):
    return re.findall(rb"[^ \t]+", line)


def is_comment(fields):
    return bool(fields) and fields[0].startswith(b"#")


# ---- graphs

class Graph:
    """A block: its number, its name, and its refusal as a line and a word, or its edges, their ranges and its constraints."""

    def __init__(self, number, name):
        self.number, self.name, self.refusal = number, name, None
        self.ends, self.ranges, self.runs, self.places, self.vertices = [], [], [], {}, {}

    def settle(self):
        """What follows from the edges: their places, the sources, the sinks, and what can be reached."""
        self.places = {pair: e for e, pair in enumerate(self.ends)}
        self.vertices = {v: n for n, v in enumerate(dict.fromkeys(v for pair in self.ends for v in pair))}
        tails, heads = {u for u, _ in self.ends}, {v for _, v in self.ends}
        self.sources, self.sinks = tails - heads, heads - tails
        self.out = {v: [] for v in self.vertices}
        for e, (u, _) in enumerate(self.ends):
            self.out[u].append(e)
        self.reach = {}
        for v in self.vertices:
            self.reach_of(v)

    def reach_of(self, start):
        """The vertices that a walk from a vertex comes to, itself among them."""
        left = [start]
        while left:
            v = left[-1]
            heads = [self.ends[e][1] for e in self.out[v]]
            new = [w for w in heads if w not in self.reach]
            if new:
                left += new
            else:
                left.pop()
                self.reach[v] = {v}.union(*(self.reach[w] for w in heads))
        return self.reach[start]

    def may_follow(self, one, other):
        """Whether some walk has one edge and later the other."""
        return self.ends[other][0] in self.reach[self.ends[one][1]]

    def run_of(self, names):
        """The edges between neighbours of a list of names; KeyError where two are none."""
        return tuple(self.places[pair] for pair in zip(names, names[1:]))


def lines_in(text):
    lines = text.split(b"\n")
    if not lines[-1]:
        lines.pop()
    return [line[:-1] if line.endswith(b"\r") else line for line in lines]


def blocks_in(text):
    """The numbered lines of each block that is a graph, without the blank ones."""
    block, has_content = [], False
    for place, line in enumerate(lines_in(text), 1):
        fields = fields_of(line)
        if not fields:
            continue
        if is_comment(fields) and has_content:
            yield block
            block, has_content = [], False
        block.append((place, line, fields))
        has_content = has_content or not is_comment(fields)
    if has_content or any(fields[0] == b"#S" for _, _, fields in block):
        yield block


def name_of(block):
    _, line, fields = block[0]
    is_name = is_comment(fields) and fields[0] != b"#S" and len(line) <= LONGEST
    return line.partition(b"#")[2].strip(b" \t") if is_name else b""


def weight_of(field):
    found = WEIGHT.fullmatch(field)
    return int(found[1]) if found and int(found[1]) <= MOST_WEIGHT else None


def graphs_in(text, model):
    graphs = []
    for number, block in enumerate(blocks_in(text), 1):
        graph = Graph(number, name_of(block))
        graph.refusal = first_bad_line(graph, block, 4 if model == b"interval" else 3)
        if graph.refusal is None:
            graph.refusal = first_bad_edge(graph, model)
        if graph.refusal is not None:
            graph.ends, graph.ranges, graph.runs = [], [], []
        graph.settle()
        graphs.append(graph)
    return graphs


def first_bad_line(graph, block, width):
    """The first of the nine causes that lines have; the graph gets its edges, with their lines, and its lists of names."""
    content = [place for place, _, fields in block if not is_comment(fields)]
    count, graph.lists, graph.lines = content[0] if content else None, {}, []
    for place, line, fields in block:
        cause = None
        if len(line) > LONGEST:
            cause = "LongLine"
        elif place == count and not (len(fields) == 1 and re.fullmatch(rb"[0-9]{1,19}", fields[0])):
            cause = "BadCount"
        elif count is None and place == block[-1][0]:
            cause = "BadCount"
        elif fields[0] == b"#S":
            cause = cause_of_list(graph, place, tuple(fields[1:]))
        elif not is_comment(fields) and place != count:
            cause = cause_of_edge(graph, place, fields, width)
        if cause:
            return place, cause
    return None


def cause_of_list(graph, place, names):
    if len(names) >= 2 and names not in graph.lists and len(graph.lists) == MOST_RULES:
        return "TooManyConstraints"
    if len(names) < 2:
        return "ShortConstraint"
    graph.lists.setdefault(names, place)
    return None


def cause_of_edge(graph, place, fields, width):
    if len(fields) != width:
        return "BadFields"
    weights = [weight_of(field) for field in fields[2:]]
    if None in weights:
        return "BadWeight"
    if weights[0] > weights[-1]:
        return "BadRange"
    pair = tuple(fields[:2])
    if pair in graph.places:
        return "RepeatedEdge"
    if len(graph.ends) == MOST_EDGES:
        return "TooManyEdges"
    graph.places[pair] = len(graph.ends)
    graph.ends.append(pair)
    graph.ranges.append((weights[0], weights[-1]))
    graph.lines.append(place)
    return None


def first_bad_edge(graph, model):
    """The cause of a block whose lines are right each by itself; the graph gets its constraints."""
    out = {}
    for place, (u, v) in zip(graph.lines, graph.ends):
        left, seen = [v], {v}
        while left:
            for w in out.get(left.pop(), []):
                if w not in seen:
                    seen.add(w)
                    left.append(w)
        if u in seen:
            return place, "Cycle"
        out.setdefault(u, []).append(v)
    for names, place in graph.lists.items():
        if any(pair not in graph.places for pair in zip(names, names[1:])):
            return place, "UnknownEdge"
        graph.runs.append(graph.run_of(names))
    for v in dict.fromkeys(v for pair in graph.ends for v in pair):
        into = [lo for (_, head), (lo, _) in zip(graph.ends, graph.ranges) if head == v]
        onward = [lo for (tail, _), (lo, _) in zip(graph.ends, graph.ranges) if tail == v]
        if model == b"exact" and into and onward and sum(into) != sum(onward):
            return next(place for place, pair in zip(graph.lines, graph.ends) if v in pair), "Unconserved"
    return None


# ---- texts of reports

class Report:
    pass


def want(holds):
    if not holds:
        raise ValueError


def number(field, least=0, bound=2**64):
    want(NUMBER.fullmatch(field) and least <= int(field) < bound)
    return int(field)


def number_or_none(field):
    return None if field == b"none" else number(field)


def texts_in(reports):
    """The lines of each text, the number of lines before it, and whether it ends with a line feed."""
    lines = reports.split(b"\n")
    rest, texts, first = lines.pop(), [], 0
    for place, line in enumerate(lines):
        if line == b"end":
            texts.append((lines[first : place + 1], first, True))
            first = place + 1
    if first < len(lines) or rest:
        texts.append((lines[first:] + [rest] * bool(rest), first, not rest))
    return texts


def model_of(lines):
    """The model of the second line of a text as a word and K, or None."""
    fields = lines[1].split(b" ") if len(lines) > 1 else []
    if fields in ([b"model", b"exact"], [b"model", b"interval"]):
        return fields[1], None
    try:
        want(len(fields) == 3 and fields[:2] == [b"model", b"abs"])
        return b"abs", number(fields[2], 0, MOST_PATHS + 1)
    except ValueError:
        return None


def report_of(lines, graph):
    """The report that the lines are, with the names of the graph; ValueError where they are none."""
    report, rest = Report(), iter(lines)
    try:
        read_report(report, rest, lines, graph)
    except (StopIteration, KeyError):
        raise ValueError from None
    want(next(rest, None) is None)
    return report


def read_report(report, rest, lines, graph):
    found = re.fullmatch(rb"graph ([^ ]+)(?: (.*))?", next(rest), re.DOTALL)
    want(found)
    report.number, report.name = number(found[1], 1), found[2]
    want(report.name is None or report.name and report.name == report.name.strip(b" \t"))
    report.name = report.name or b""
    next(rest)
    report.model = model_of(lines)
    want(report.model)
    word, *values = next(rest).split(b" ")
    report.refusal = None
    if word == b"refused":
        want(len(values) == 2 and values[1].decode("latin-1") in CAUSES.split(" "))
        report.refusal = number(values[0], 1), values[1].decode()
        want(next(rest) == b"end")
        return
    want(word == b"mark" and len(values) == 1 and values[0] in (b"optimal", b"infeasible", b"bounds"))
    report.mark = values[0].decode()
    report.lower, report.upper = bound(next(rest), b"lower"), bound(next(rest), b"upper")
    line, report.paths = next(rest), []
    while line.startswith(b"path "):
        _, weight, *names = line.split(b" ")
        want(len(names) >= 2)
        report.paths.append((-number(weight, 1), graph.run_of(names)))
        line = next(rest)
    want(is_rising(report.paths))
    report.cert_line = 6 + len(report.paths)
    read_cert(report, line.split(b" "), rest, graph)
    line, report.trail, report.safe = next(rest), None, None
    report.trail_line = report.cert_line + len(report.items) + 1
    if report.mark == "bounds":
        word, slots, limit, count = line.split(b" ")
        want(word == b"trail")
        report.trail = number(slots, 0, 2**32), number_or_none(limit), tokens(rest, number(count))
        line = next(rest)
    report.safe_line = report.trail_line + (len(report.trail[2]) + 1 if report.trail else 0)
    if line.startswith(b"safe "):
        _, count = line.split(b" ")
        report.safe = [graph.run_of(names_behind(next(rest), b"run")) for _ in range(number(count))]
        want(is_rising(report.safe) and all(report.safe))
        line = next(rest)
    want(line == b"end")


def bound(line, word):
    first, value = line.split(b" ")
    want(first == word)
    return number_or_none(value)


def names_behind(line, word):
    first, *names = line.split(b" ")
    want(first == word and names)
    return names


def is_rising(items):
    return all(one < other for one, other in zip(items, items[1:]))


def tokens(rest, count):
    found = []
    for _ in range(count):
        word, *value = next(rest).split(b" ")
        want(word == b"gap" and not value or word in (b"miss", b"split", b"step") and len(value) == 1)
        found.append((word, number(value[0], 1, 2**32) - 1 if value else None))
    return found


def read_cert(report, fields, rest, graph):
    want(len(fields) >= 2 and fields[0] == b"cert")
    report.cert, values = fields[1].decode("latin-1"), fields[2:]
    report.items = []
    if report.cert == "none":
        want(not values)
    elif report.cert == "wide":
        (count,) = values
        report.items = [graph.places[tuple(names_behind(next(rest), b"edge"))] for _ in range(number(count))]
        want(is_rising(report.items))
    elif report.cert == "tree":
        slots, limit, count = values
        report.slots, report.limit = number(slots, 0, 2**32), number_or_none(limit)
        report.items = tokens(rest, number(count))
    elif report.cert == "cut":
        report.side, count = values
        want(report.side in (b"in", b"out"))
        for _ in range(number(count)):
            (name,) = names_behind(next(rest), b"vertex")
            report.items.append(graph.vertices[name])
        want(is_rising(report.items))
    else:
        tail, head, count = values
        want(report.cert == "crowd")
        report.edge = graph.places[tail, head]
        for _ in range(number(count)):
            (rule,) = names_behind(next(rest), b"rule")
            report.items.append(number(rule, 1, 2**32) - 1)
        want(is_rising(report.items))


# ---- boxes

class Boxes:
    """The question whether at most so many paths meet the constraints with an error within the limit; a box is a list of (lo, hi, walk)."""

    def __init__(self, graph, slots, limit):
        self.graph, self.limit = graph, limit
        self.starts = [e for e, (u, _) in enumerate(graph.ends) if u in graph.sources]
        self.root = [(0, max([1] + [hi for _, hi in graph.ranges]), ())] * slots

    def bounds(self, box):
        lows, highs = [lo for lo, _, _ in box], [hi for _, hi, _ in box]
        for k in range(len(box) - 2, -1, -1):
            lows[k] = max(lows[k], lows[k + 1])
        for k in range(1, len(box)):
            highs[k] = min(highs[k], highs[k - 1])
        return lows, highs

    def may_have(self, walk, run):
        """Whether some path begins with the walk and has the run."""
        whole = [walk[k : k + len(run)] for k in range(len(walk))]
        meets = any(part == run[: len(part)] for part in whole)
        return not walk or meets or self.graph.may_follow(walk[-1], run[0])

    def gap(self, box):
        lows, highs = self.bounds(box)
        total = 0
        for e, (lo, hi) in enumerate(self.graph.ranges):
            least = sum(low for (_, _, walk), low in zip(box, lows) if e in walk)
            most = sum(high for (_, _, walk), high in zip(box, highs) if self.may_have(walk, (e,)))
            total += max(0, least - hi, lo - most)
        return total

    def is_closed(self, box):
        return self.limit is not None and self.gap(box) > self.limit

    def is_missed(self, box, rule):
        _, highs = self.bounds(box)
        run = self.graph.runs[rule]
        return not any(high >= 1 and self.may_have(walk, run) for (_, _, walk), high in zip(box, highs))

    def is_legal(self, box, token):
        word, place = token
        if word == b"gap":
            return self.is_closed(box)
        if word == b"miss":
            return place < len(self.graph.runs) and self.is_missed(box, place)
        if place >= len(box) or not self.graph.ends or self.is_closed(box) or any(self.is_missed(box, c) for c in range(len(self.graph.runs))):
            return False
        lows, highs = self.bounds(box)
        if word == b"split":
            return lows[place] < highs[place]
        walk = box[place][2]
        return highs[place] >= 1 and not (walk and self.graph.ends[walk[-1]][1] in self.graph.sinks)

    def after(self, box, token):
        word, place = token
        if word in (b"gap", b"miss"):
            return []
        lo, hi, walk = box[place]
        if word == b"split":
            lows, highs = self.bounds(box)
            middle = (lows[place] + highs[place]) // 2
            slots = [(lo, middle, walk), (middle + 1, hi, walk)]
        else:
            following = self.graph.out[self.graph.ends[walk[-1]][1]] if walk else self.starts
            slots = [(lo, hi, walk + (e,)) for e in following]
        return [box[:place] + [slot] + box[place + 1 :] for slot in slots]

    def left_by(self, tokens_):
        """The number of boxes that the tokens leave, or None where one is not legal."""
        boxes = [self.root]
        for token in tokens_:
            if not boxes or not self.is_legal(boxes[-1], token):
                return None
            boxes[-1:] = reversed(self.after(boxes[-1], token))
        return len(boxes)


# ---- what a report claims

def contains(path, run):
    return any(path[k : k + len(run)] == run for k in range(len(path)))


def has_both(graph, edge, one, other):
    """Whether some path has two runs that both go through an edge."""
    before, behind = one.index(edge), other.index(edge)
    tails = one[:before][::-1], other[:behind][::-1]
    heads = one[before:], other[behind:]
    return all(a == b for pair in (tails, heads) for a, b in zip(*pair))


def answer_to(graph, report):
    """`yes`, or the line of the text of the first clause that fails."""
    model, most = report.model
    if report.mark == "optimal":
        marks = report.lower is not None and report.lower == report.upper
    elif report.mark == "infeasible":
        marks = report.lower is None and report.upper is None
    else:
        marks = report.lower is not None and (report.upper is None or report.upper > report.lower)
    if not marks:
        return 3
    if not is_met(graph, report, model, most):
        return 5
    if not is_shown(graph, report, model, most):
        return report.cert_line
    if report.trail and not leaves_a_box(graph, report, model, most):
        return report.trail_line
    if report.safe is not None and not (model == b"exact" and report.safe == safe_runs(graph)):
        return report.safe_line
    return "yes"


def is_met(graph, report, model, most):
    paths = [(path, -weight) for weight, path in report.paths]
    if report.upper is None:
        return not paths
    sums = [0] * len(graph.ends)
    for path, weight in paths:
        if graph.ends[path[0]][0] not in graph.sources or graph.ends[path[-1]][1] not in graph.sinks:
            return False
        for e in path:
            sums[e] += weight
    error = sum(max(0, lo - total, total - hi) for (lo, hi), total in zip(graph.ranges, sums))
    if len({path for path, _ in paths}) < len(paths) or not all(any(contains(path, run) for path, _ in paths) for run in graph.runs):
        return False
    if model == b"abs":
        return len(paths) <= most and error == report.upper
    return error == 0 and len(paths) == report.upper


def is_shown(graph, report, model, most):
    lower, counted = report.lower, model != b"abs"
    if report.cert == "none":
        return report.mark != "infeasible" and lower == 0
    if report.cert == "wide":
        items = report.items
        apart = not any(graph.may_follow(d, e) or graph.may_follow(e, d) for d, e in combinations(items, 2))
        return report.mark != "infeasible" and counted and len(items) == lower and all(graph.ranges[e][0] >= 1 for e in items) and apart
    if report.cert == "tree":
        whole = len(graph.ends) + len(graph.runs)
        if report.mark == "infeasible":
            asked = (whole, 0) if counted else (most, None)
        else:
            if lower < 1 or counted and lower > whole:
                return False
            asked = (lower - 1, 0) if counted else (most, lower - 1)
        return (report.slots, report.limit) == asked and Boxes(graph, *asked).left_by(report.items) == 0
    if report.mark != "infeasible" or not counted:
        return False
    if report.cert == "cut":
        return is_cut(graph, report)
    runs = [graph.runs[c] for c in report.items if c < len(graph.runs)]
    through = len(runs) == len(report.items) and all(report.edge in run for run in runs)
    return through and len(runs) > graph.ranges[report.edge][1] and not any(has_both(graph, report.edge, *pair) for pair in combinations(runs, 2))


def is_cut(graph, report):
    inside = {v for v, place in graph.vertices.items() if place in set(report.items)}
    entering = [bounds for (u, v), bounds in zip(graph.ends, graph.ranges) if u not in inside and v in inside]
    leaving = [bounds for (u, v), bounds in zip(graph.ends, graph.ranges) if u in inside and v not in inside]
    must, may, ends = (entering, leaving, graph.sinks) if report.side == b"in" else (leaving, entering, graph.sources)
    return not inside & ends and sum(lo for lo, _ in must) > sum(hi for _, hi in may)


def leaves_a_box(graph, report, model, most):
    slots, limit, tokens_ = report.trail
    if model == b"abs":
        if slots != most or (limit is None) != (report.upper is None):
            return False
        if limit is not None and not report.lower <= limit < report.upper:
            return False
    elif limit != 0 or slots != (len(graph.ends) + len(graph.runs) if report.upper is None else report.upper - 1):
        return False
    return bool(Boxes(graph, slots, limit).left_by(tokens_))


def safe_runs(graph):
    """The runs of positive excess that no other such run contains, by rising edge list."""
    flows = [lo for lo, _ in graph.ranges]
    safe, left = set(), [((e,), flow) for e, flow in enumerate(flows) if flow > 0]
    while left:
        run, excess = left.pop()
        safe.add(run)
        following = graph.out[graph.ends[run[-1]][1]]
        total = sum(flows[e] for e in following)
        left += [(run + (e,), excess + flows[e] - total) for e in following if excess + flows[e] > total]
    parts = {run[k:n] for run in safe for k in range(len(run)) for n in range(k + 1, len(run) + 1) if n - k < len(run)}
    return sorted(safe - parts)


def answer_on(graph, text, model):
    """What is said of a block and its text: `yes`, `unread`, or the line in the whole file that a `no` names."""
    lines, before, is_whole = text
    try:
        want(is_whole)
        report = report_of(lines, graph)
    except ValueError:
        return "unread"
    if report.number != graph.number or report.name != graph.name:
        return before + 1
    if report.model[0] != model[0] or report.model[1] != model[1]:
        return before + 2
    if graph.refusal is not None or report.refusal is not None:
        return "yes" if graph.refusal == report.refusal else before + 3
    answer = answer_to(graph, report)
    return answer if answer == "yes" else before + answer


def answers_on(graph_text, report_text):
    """The answers on each block that has a text, the number of blocks, and the number of texts."""
    texts = texts_in(report_text)
    model = model_of(texts[0][0]) if texts else None
    model = model or (b"exact", None)
    graphs = graphs_in(graph_text, model[0])
    return [answer_on(graph, text, model) for graph, text in zip(graphs, texts)], len(graphs), len(texts)


def first_difference(graph_text, report_text, said):
    """Where the lines that a checker wrote, and its status, are not those of this reading; None where they are."""
    lines, status = said
    answers, blocks, texts = answers_on(graph_text, report_text)
    wanted = [b"graph %d " % place + (answer.encode() if isinstance(answer, str) else b"no %d" % answer) for place, answer in enumerate(answers, 1)]
    if blocks != texts:
        wanted.append(b"blocks %d reports %d" % (blocks, texts))
    for line, other in zip_longest(lines.split(b"\n")[:-1], wanted):
        is_like = line == other or line is not None and other is not None and other.endswith(b" unread") and line.startswith(other + b" ")
        if not is_like:
            return f"the checker says {line!r}, and this reading {other!r}"
    code = 2 if "unread" in answers or blocks != texts else 1 if any(answer != "yes" for answer in answers) else 0
    return None if status == code else f"the checker has status {status} and not {code}"


def first_fault(graph_text, model, reports, status):
    """What is wrong with the reports that flowpaths wrote of a text in a model, a word and K, and with its status; None where nothing is."""
    graphs, texts = graphs_in(graph_text, model[0]), texts_in(reports)
    if len(graphs) != len(texts):
        return f"{len(texts)} reports on {len(graphs)} graphs"
    for graph, text in zip(graphs, texts):
        answer = answer_on(graph, text, model)
        if answer != "yes":
            return f"report {graph.number}: {answer}, refusal {graph.refusal}"
    is_open = any(b"mark bounds" in lines[2:3] for lines, _, _ in texts)
    code = 2 if any(graph.refusal for graph in graphs) else 1 if is_open else 0
    return None if status == code else f"status {status} and not {code}"
