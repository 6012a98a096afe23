#!/usr/bin/env python3
"""Nets made of hidden paths, and how near a program comes to their number.

    hidden.py write KIND .. [seed SEED ..]                      writes the nets to standard output
    hidden.py run PROGRAM KIND .. [seed SEED ..] [-- OPTION ..]  runs the program on each net by itself, and prints a line for each

A net is made of random paths over layers: each path goes through one vertex of each layer, drawn anew, and has a weight of 1 to 1,000. There are as
many as the kind says; so the net has a decomposition into that many paths, or into fewer, and it is not written down which. The same words give the same
bytes. The kinds, each with the seeds 1, 2 and 3 where none is given:

    30, 40, 60            so many hidden paths, on some 200 edges; those of 60 meet often
    300, 600, 900         so many over eight layers, on some 1,000, 2,000 and 3,000 edges
    PATHS,LAYERS,WIDTH    so many over so many layers of so many vertices

A line of `run` has the kind and the seed, the edges, the number of hidden paths, the width, `lower` and `upper` of the report, its mark (or `refused`, or
the status of a run that failed), and the seconds by the clock. The last line has the sums over the nets that have an upper bound. What stands behind `--`
is given to the program, as in

    hidden.py run target/flowpaths 30 40 60 -- --nodes 50000
"""
import random
import subprocess
import sys
import time
from collections import deque

KINDS = {"30": (30, 10, 7), "40": (40, 8, 7), "60": (60, 8, 6), "300": (300, 8, 14), "600": (600, 8, 18), "900": (900, 8, 22)}
SEEDS = [1, 2, 3]
LIMIT = 600


def sizes_of(kind):
    """The number of paths, of layers, and of vertices in each."""
    if kind in KINDS:
        return KINDS[kind]
    numbers = [int(word) for word in kind.split(",")]
    if len(numbers) != 3 or min(numbers) < 1:
        sys.exit(__doc__)
    return tuple(numbers)


def net_of(kind, seed):
    """The weight of each edge, edges in the order in which paths came to them."""
    paths, layers, width = sizes_of(kind)
    draw = random.Random(f"{kind} {seed}")
    weights = {}
    for _ in range(paths):
        names = [f"v{layer}_{draw.randrange(width)}" for layer in range(layers)]
        weight = draw.randint(1, 1000)
        for edge in zip(names, names[1:]):
            weights[edge] = weights.get(edge, 0) + weight
    return weights


def text_of(kind, seed, weights):
    vertices = len({name for edge in weights for name in edge})
    return "\n".join([f"# hidden {kind} {seed}", str(vertices)] + [f"{u} {v} {w}" for (u, v), w in weights.items()]) + "\n"


def width_of(weights):
    """The most edges of which no two lie on one path: the fewest units that go over every edge. Units are laid through each edge that has none, and
    then taken back, one after another, along ways that lead forward over links with a unit to spare and backward over any link."""
    tails, heads = {u for u, _ in weights}, {v for _, v in weights}
    links = list(weights) + [("", name) for name in tails - heads] + [(name, "end") for name in heads - tails]
    after, before = {}, {}
    for link in links:
        after.setdefault(link[0], []).append(link)
        before.setdefault(link[1], []).append(link)
    units = dict.fromkeys(links, 0)
    for link in weights:
        if not units[link]:
            lay_unit(units, after, before, link)
    while way := way_back(units, weights, after, before):
        for link, change in way:
            units[link] += change
    return sum(units[link] for link in after[""])


def lay_unit(units, after, before, link):
    """A unit through a link from the beginning to the end, where it can over links that have none."""
    units[link] += 1
    tail, head = link
    while tail:
        tail, _ = least = min(before[tail], key=units.get)
        units[least] += 1
    while head != "end":
        _, head = least = min(after[head], key=units.get)
        units[least] += 1


def way_back(units, weights, after, before):
    """A way from the beginning to the end along which a unit can be taken back, with what each link changes by; none where there is no way."""
    came = {"": None}
    queue = deque([""])
    while queue and "end" not in came:
        place = queue.popleft()
        for link in after.get(place, []):
            if units[link] > (link in weights) and link[1] not in came:
                came[link[1]] = link, -1
                queue.append(link[1])
        for link in before.get(place, []):
            if link[0] not in came:
                came[link[0]] = link, 1
                queue.append(link[0])
    way, place = [], "end"
    while came.get(place):
        link, change = came[place]
        way.append((link, change))
        place = link[0] if change < 0 else link[1]
    return way


def fields_of(report):
    """The mark of a report and its bounds, as words."""
    lines = dict(line.partition(" ")[::2] for line in report.splitlines())
    return ("refused" if "refused" in lines else lines.get("mark", "none")), lines.get("lower", "none"), lines.get("upper", "none")


def run(program, options, kinds):
    print("kind seed edges hidden width lower upper mark seconds")
    nets = edges = hidden = wide = uppers = decided = 0
    seconds = 0.0
    for kind, seed in kinds:
        weights = net_of(kind, seed)
        begun = time.monotonic()
        try:
            done = subprocess.run([program, *options], input=text_of(kind, seed, weights), capture_output=True, text=True, timeout=LIMIT)
            mark, lower, upper = fields_of(done.stdout)
            if done.returncode > 2:
                mark = f"status {done.returncode}"
        except subprocess.TimeoutExpired:
            mark, lower, upper = f"no end after {LIMIT}", "none", "none"
        took = time.monotonic() - begun
        width = width_of(weights)
        print(kind, seed, len(weights), sizes_of(kind)[0], width, lower, upper, mark.replace(" ", "_"), f"{took:.2f}", flush=True)
        if upper.isdigit():
            nets, edges, hidden, wide = nets + 1, edges + len(weights), hidden + sizes_of(kind)[0], wide + width
            uppers, decided, seconds = uppers + int(upper), decided + (mark == "optimal"), seconds + took
    print(f"sums of {nets} nets: {edges} edges, {hidden} hidden, width {wide}, upper {uppers}, {decided} optimal, {seconds:.1f} seconds")


def drawn(words):
    """Kinds and seeds: a word with a comma or of KINDS is a kind, and the seeds of a kind follow `seed`."""
    kinds, seeds = [], []
    target = kinds
    for word in words:
        if word == "seed":
            target = seeds
        else:
            target.append(word)
    if not kinds or not all(word.isdigit() for word in seeds):
        sys.exit(__doc__)
    return [(kind, int(seed)) for kind in kinds for seed in seeds or SEEDS]


def main(words):
    options = []
    if "--" in words:
        place = words.index("--")
        words, options = words[:place], words[place + 1 :]
    if words[:1] == ["write"]:
        for kind, seed in drawn(words[1:]):
            sys.stdout.write(text_of(kind, seed, net_of(kind, seed)))
    elif words[:1] == ["run"] and len(words) > 2:
        run(words[1], options, drawn(words[2:]))
    else:
        sys.exit(__doc__)


if __name__ == "__main__":
    main(sys.argv[1:])
