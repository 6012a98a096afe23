#!/usr/bin/env python3
"""Nearest flows: what they cost, and whether another solver finds none that is nearer.

    nearest.py measure FLOWNEAR            runs the program on chains, grids and layers with noise, and prints a table in Markdown
    nearest.py compare FLOWNEAR [COUNT]    holds its change on COUNT random graphs, 1,000 where nothing is said, against networkx

The same words give the same graphs. A noise of p changes that share of the weights to 50 to 150 in a hundred of what they were. Seconds are of
processor time. Where networkx is missing `compare` says so and does nothing. The status is 1 where a run fails or a change differs.
"""
import random
import resource
import subprocess
import sys

NOISES = 0.01, 0.1, 0.5
SIZES = 256, 1024, 4096
MOST = 10**12


def text_of(edges):
    return "# g\n0\n" + "".join(f"{u} {v} {w}\n" for u, v, w in edges)


def run(program, edges):
    """The change that the program tells, and its seconds."""
    before = resource.getrusage(resource.RUSAGE_CHILDREN).ru_utime
    done = subprocess.run([program], input=text_of(edges), capture_output=True, text=True, check=False)
    seconds = resource.getrusage(resource.RUSAGE_CHILDREN).ru_utime - before
    lines = done.stdout.split("\n")
    if done.returncode != 0 or not lines[1].startswith("change "):
        sys.exit(f"nearest.py: a run ended with status {done.returncode}")
    return int(lines[1].split()[1]), seconds


def summed(paths):
    """The edges of weighted paths, with the sums of their weights."""
    sums = {}
    for path, weight in paths:
        for edge in zip(path, path[1:]):
            sums[edge] = sums.get(edge, 0) + weight
    return [(u, v, w) for (u, v), w in sums.items()]


def chain(size, lot):
    return summed([([f"v{i}" for i in range(size + 1)], lot.randint(1, MOST))])


def grid(size, lot):
    side = int((size / 2) ** 0.5)
    paths = []
    for _ in range(3 * side):
        steps = [0] * (side - 1) + [1] * (side - 1)
        lot.shuffle(steps)
        at, path = (0, 0), ["v0_0"]
        for step in steps:
            at = (at[0] + 1 - step, at[1] + step)
            path.append(f"v{at[0]}_{at[1]}")
        paths.append((path, lot.randint(1, MOST // (3 * side))))
    return summed(paths)


def layers(size, lot):
    count, width = size // 8, size // 20 + 2
    return summed([(["s"] + [f"v{layer}_{lot.randrange(width)}" for layer in range(8)] + ["t"], lot.randint(1, MOST // count)) for _ in range(count)])


def noisy(edges, share, lot):
    return [(u, v, w * lot.randint(50, 150) // 100 if lot.random() < share else w) for u, v, w in edges]


def measure(program):
    print("| graph | edges | noise | change | seconds |\n|---|---|---|---|---|")
    for make in (chain, grid, layers):
        for size in SIZES:
            for share in NOISES:
                lot = random.Random(size)
                edges = [(u, v, min(w, MOST)) for u, v, w in noisy(make(size, lot), share, lot)][:4096]
                change, seconds = run(program, edges)
                print(f"| {make.__name__} | {len(edges):,} | {share:.0%} | {change:,} | {seconds:.3f} |", flush=True)


def least_change(networkx, edges):
    """The least change of a balanced flow: on each edge the weight is had at a gain of 1 a unit, and more at a cost of 1."""
    net = networkx.MultiDiGraph()
    tails, heads = {u for u, _, _ in edges}, {v for _, v, _ in edges}
    for u, v, w in edges:
        net.add_edge(u, v, capacity=w, weight=-1)
        net.add_edge(u, v, capacity=10**15, weight=1)
    for v in tails - heads:
        net.add_edge("outside", v, weight=0, capacity=10**15)
    for v in heads - tails:
        net.add_edge(v, "outside", weight=0, capacity=10**15)
    cost, _ = networkx.network_simplex(net)
    return cost + sum(w for _, _, w in edges)


def compare(program, count):
    try:
        import networkx
    except ImportError:
        print("networkx is not here: nothing is compared")
        return
    lot = random.Random(1)
    for number in range(count):
        vertices = lot.randint(2, 12)
        pairs = [(i, j) for j in range(vertices) for i in range(j) if lot.random() < 0.5]
        edges = [(f"v{i}", f"v{j}", lot.randint(0, lot.choice([3, 30, MOST]))) for i, j in pairs]
        if edges:
            told, least = run(program, edges)[0], least_change(networkx, edges)
            if told != least:
                sys.exit(f"nearest.py: graph {number} has change {least}, and {told} was told")
    print(f"{count} graphs, the same change on each")


if __name__ == "__main__":
    words = sys.argv[1:]
    if len(words) == 2 and words[0] == "measure":
        measure(words[1])
    elif len(words) in (2, 3) and words[0] == "compare":
        compare(words[1], int(words[2]) if len(words) == 3 else 1000)
    else:
        sys.exit(__doc__)
