"""What the programs of this folder share: the lines of a file, the graphs of a graph text, and the reports of a report text."""
import argparse
import collections
import re
import signal
import sys

# Each byte is one character, and a line ends with a line feed alone: so any bytes come out as they went in.
ANY_BYTES = {"encoding": "latin-1", "newline": "\n"}


def quoted(text):
    """A text in quotes, in which Graphviz finds nothing to replace."""
    known = text.encode("latin-1").decode("utf-8", "replace")
    shown = "".join(letter if letter.isprintable() else "\ufffd" for letter in known)
    return '"' + shown.replace("&", "&amp;").replace("\\", "\\\\").replace('"', r"\"") + '"'


def arguments_of(*declared):
    """The program's arguments, each declared by its name, its default or None, and its meaning. Wrong ones end it with its usage and status 2."""
    # A gone reader of the output ends the program, as it does other programs that stand in a pipe.
    signal.signal(signal.SIGPIPE, signal.SIG_DFL)
    sys.stdout.reconfigure(**ANY_BYTES)
    parser = argparse.ArgumentParser(description=sys.modules["__main__"].__doc__, formatter_class=argparse.RawDescriptionHelpFormatter)
    for name, settings in declared:
        parser.add_argument(name, **settings)
    return parser.parse_args()


def lines_of(name):
    """The lines of a file, or for `-` of standard input, each with its line feed."""
    try:
        return open(0 if name == "-" else name, **ANY_BYTES)
    except OSError as error:
        stop(f"{name}: {error.strerror}")


def stop(why):
    """Ends the program with a line on standard error and status 1."""
    sys.exit(f"{sys.argv[0].rpartition('/')[2]}: {why}")


class Graph:
    """A graph of a text: its lines as they stand, and what they say."""

    def __init__(self):
        self.lines = []
        self.head = []
        self.body = []

    def add(self, line, text):
        self.lines.append(line)
        if text:
            (self.head if text.startswith("#") else self.body).append(text)

    def is_graph(self):
        """Comments alone, at the end of a text, are none, unless a `#S` line is among them."""
        return bool(self.body) or any(fields_of(text)[0] == "#S" for text in self.head)

    def name(self):
        first = self.head[0] if self.head else ""
        return "" if fields_of(first)[0] == "#S" else first[1:].strip(" \t")

    def constraints(self):
        """The vertices of each `#S` line."""
        return [fields_of(text)[1:] for text in self.head if fields_of(text)[0] == "#S"]

    def edges(self):
        """Of each edge line, below the line with the number of vertices, its tail, its head and its numbers."""
        lines = [fields_of(text) for text in self.body[1:]]
        for fields in lines:
            if len(fields) < 3:
                stop(f"no edge line: {' '.join(fields)}")
        return [(tail, head, numbers) for tail, head, *numbers in lines]


def fields_of(text):
    return re.split("[ \t]+", text)


def whole(text):
    """The whole number that a text is, also where it is written as 7.0."""
    if not re.fullmatch("[0-9]+([.]0+)?", text):
        stop(f"no whole number: {text}")
    return int(text.partition(".")[0])


def graphs_of(lines):
    """The graphs of a text. A `#` line begins one where a line that is neither blank nor a `#` line stands before it in the graph in progress."""
    graph = Graph()
    for line in lines:
        text = line.removesuffix("\n").removesuffix("\r").strip(" \t")
        if text.startswith("#") and graph.body:
            yield graph
            graph = Graph()
        graph.add(line, text)
    if graph.lines:
        yield graph


class Report:
    """A report: its number and its name, and what stands behind the first word of each other line."""

    def __init__(self, lines):
        _, self.number, self.name = f"{lines[0]} ".split(" ", 2)
        self.name = self.name.removesuffix(" ")
        self.texts = collections.defaultdict(list)
        for line in lines[1:]:
            word, _, text = line.partition(" ")
            self.texts[word].append(text)

    def all(self, word):
        return self.texts.get(word, [])

    def first(self, word):
        return next(iter(self.all(word)), "")

    def paths(self):
        """Of each path its weight and its vertices."""
        return [(int(weight), vertices.split(" ")) for weight, _, vertices in (text.partition(" ") for text in self.all("path"))]


def reports_of(lines):
    """The reports of a text: each ends with a line `end`."""
    report = []
    for line in lines:
        report.append(line.removesuffix("\n"))
        if report[-1] == "end":
            yield Report(report)
            report = []
    if report:
        stop("the last report has no line `end`")
