"""Writes inputs for the measurements to standard output. The same words give the same bytes.

    generate.py small COUNT [SEED]    COUNT graphs of about ten edges
    generate.py large COUNT [SEED]    COUNT graphs of 200 edges or a few more
    generate.py tangled COUNT [SEED]  COUNT graphs of at most 60 edges, made of four to twelve paths that often meet
    generate.py ruled COUNT [SEED]    tangled graphs with four constraints each, of runs of four edges of their paths
    generate.py ranges COUNT [SEED]   tangled graphs whose weights are known to a tenth to either side
    generate.py noisy COUNT [SEED]    graphs of at most 60 edges, made of two to four paths, with an error of at most a tenth on each weight
    generate.py rules [SEED]          one graph of 250 edges or a few more, made of paths of 24 edges, with 32 constraints of 20 edges
    generate.py comments BYTES        comment and blank lines, BYTES bytes in all
    generate.py long [LINES]          one graph: LINES comment lines, blank lines, and names of 60,000 bytes
"""
import random
import sys

LAYERS = ("s",), ("a0", "a1", "a2"), ("b0", "b1", "b2"), ("c0", "c1"), ("t",)
LONGEST_NAME = 60_000
MIDDLES = 127


def small_graph(draw, number):
    """A graph made of two to five weighted paths, so that it is balanced."""
    weights = {}
    for _ in range(draw.randint(2, 5)):
        names = [draw.choice(layer) for layer in LAYERS]
        weight = draw.randint(1, 1000)
        for edge in zip(names, names[1:]):
            weights[edge] = weights.get(edge, 0) + weight
    vertices = len({name for edge in weights for name in edge})
    lines = [f"# graph {number}", str(vertices)]
    lines += [f"{tail} {head} {weight}" for (tail, head), weight in weights.items()]
    return "\n".join(lines) + "\n"


def large_graph(draw, number):
    """Weighted paths over twelve layers of twelve vertices, until there are 200 edges or a few more, so that it is balanced."""
    weights = {}
    while len(weights) < 200:
        names = [f"v{layer}_{draw.randrange(12)}" for layer in range(12)]
        weight = draw.randint(1, 1000)
        for edge in zip(names, names[1:]):
            weights[edge] = weights.get(edge, 0) + weight
    lines = [f"# graph {number}", "144"] + [f"{tail} {head} {weight}" for (tail, head), weight in weights.items()]
    return "\n".join(lines) + "\n"


def tangled_graph(draw, number):
    """Four to twelve weighted paths over nine layers of one to three vertices, so that it is balanced and the paths often meet."""
    layers = [[f"v{layer}_{k}" for k in range(draw.randint(1, 3))] for layer in range(9)]
    weights = {}
    for _ in range(draw.randint(4, 12)):
        names = [draw.choice(layer) for layer in layers]
        weight = draw.randint(1, 100)
        edges = list(zip(names, names[1:]))
        if len(weights.keys() | set(edges)) > 60:
            break
        for edge in edges:
            weights[edge] = weights.get(edge, 0) + weight
    lines = [f"# graph {number}", str(sum(map(len, layers)))] + [f"{tail} {head} {weight}" for (tail, head), weight in weights.items()]
    return "\n".join(lines) + "\n"


def layered_paths(draw, most, layers):
    """Weighted paths over layers, as lists of edges, with at most 60 edges in all."""
    paths, edges = [], set()
    for _ in range(most):
        names = [draw.choice(layer) for layer in layers]
        path = list(zip(names, names[1:]))
        if len(edges | set(path)) > 60:
            break
        edges |= set(path)
        paths.append((path, draw.randint(1, 100)))
    return paths


def nine_layers(draw):
    return [[f"v{layer}_{k}" for k in range(draw.randint(1, 3))] for layer in range(9)]


def weights_of(paths):
    weights = {}
    for path, weight in paths:
        for edge in path:
            weights[edge] = weights.get(edge, 0) + weight
    return weights


def constraint_of(path, start, edges):
    run = path[start : start + edges]
    return "#S " + " ".join([run[0][0]] + [head for _, head in run])


def ruled_graph(draw, number):
    paths = layered_paths(draw, draw.randint(4, 12), nine_layers(draw))
    lines = [f"# graph {number}"]
    lines += [constraint_of(draw.choice(paths)[0], draw.randint(0, 4), 4) for _ in range(4)]
    return "\n".join(lines + ["27"] + [f"{u} {v} {w}" for (u, v), w in weights_of(paths).items()]) + "\n"


def ranged_graph(draw, number):
    weights = weights_of(layered_paths(draw, draw.randint(4, 12), nine_layers(draw)))
    lines = [f"# graph {number}", "27"]
    lines += [f"{u} {v} {w - draw.randint(0, w // 10)} {w + draw.randint(0, w // 10)}" for (u, v), w in weights.items()]
    return "\n".join(lines) + "\n"


def noisy_graph(draw, number):
    weights = weights_of(layered_paths(draw, draw.randint(2, 4), nine_layers(draw)))
    lines = [f"# graph {number}", "27"]
    lines += [f"{u} {v} {max(0, w + draw.randint(-(w // 10), w // 10))}" for (u, v), w in weights.items()]
    return "\n".join(lines) + "\n"


def rules_graph(draw):
    """Paths of 24 edges over layers of twelve vertices, until there are 250 edges, and 32 constraints among them."""
    paths, weights = [], {}
    while len(weights) < 232:
        names = [f"v{layer}_{draw.randrange(12)}" for layer in range(25)]
        paths.append((list(zip(names, names[1:])), draw.randint(1, 1000)))
        weights = weights_of(paths)
    lines = ["# rules"]
    while len(lines) < 33:
        line = constraint_of(draw.choice(paths)[0], draw.randint(0, 4), 20)
        if line not in lines:
            lines.append(line)
    return "\n".join(lines + ["300"] + [f"{u} {v} {w}" for (u, v), w in weights.items()]) + "\n"


def write_each(out, make, count, seed):
    draw = random.Random(seed)
    for number in range(1, count + 1):
        out.write(make(draw, number).encode())


def write_comments(out, size):
    """Lines of 1 to 79 bytes, every fourth one blank, the last one cut to the size."""
    lines = []
    for width in range(1, 80):
        lines.append(b"\n" if width % 4 == 0 else b"#" + b"-" * (width - 1) + b"\n")
    piece = b"".join(lines)
    for _ in range(size // len(piece)):
        out.write(piece)
    out.write(piece[: size % len(piece)])


def write_long(out, lines):
    """One block with 2 edges for each of 127 middle vertices, every name of theirs at full length."""
    out.write(b"# long names\n")
    for number in range(lines):
        out.write(b"# comment %d\n" % number)
    out.write(b"%d\n" % (MIDDLES + 2))
    for number in range(MIDDLES):
        name = b"%03d" % number + b"v" * (LONGEST_NAME - 3)
        out.write(b"s " + name + b" %d\n" % (number + 1) + b"\n" * 1000)
        out.write(name + b" t %d\n" % (number + 1) + b" \t\n" * 1000)


MAKERS = {
    "small": small_graph,
    "large": large_graph,
    "tangled": tangled_graph,
    "ruled": ruled_graph,
    "ranges": ranged_graph,
    "noisy": noisy_graph,
}


def main(words):
    out = sys.stdout.buffer
    kind, numbers = words[0], [int(word) for word in words[1:]]
    if kind in MAKERS:
        write_each(out, MAKERS[kind], numbers[0], numbers[1] if len(numbers) > 1 else 1)
    elif kind == "rules":
        out.write(rules_graph(random.Random(numbers[0] if numbers else 1)).encode())
    elif kind == "comments":
        write_comments(out, numbers[0])
    elif kind == "long":
        write_long(out, numbers[0] if numbers else 100_000)
    else:
        sys.exit(__doc__)


if __name__ == "__main__":
    if len(sys.argv) < 2:
        sys.exit(__doc__)
    main(sys.argv[1:])
