#!/usr/bin/env python3
"""Checks the documents and the tools: each command whose output is shown is run, and what it prints is compared with what is shown.

    check_documents.py PROGRAM CHECKER NEAREST RUNS NODES

PROGRAM is put on PATH as `flowpaths`, CHECKER as `flowcheck`, NEAREST as `flownear`, RUNS as `flowruns`, NODES as `flownodes`. It looks at README.md and
the other documents at the top, docs/*.md, bench/*.md and docs/man/*.1, and at what stands in tools/.

- Commands stand in blocks fenced as `console`, in manual pages between .EX and .EE. A line that begins with `$ ` is a command, and the lines up to
  the next one, or to the end of the block, are its exact output, standard error included. A block whose first line is no command is passed over. The
  commands of one document run one after another in a folder of their own, which has links to what stands at the repository's top. Each has a
  shell of its own, in which `$?` is the status of the command before it.
- Every file that a document links to or names is there, and every section named behind a document. No line of prose has more than 160 characters.
- A manual page is shown without a warning.
- Every tool tells its usage where its arguments are wrong, with status 2, and is shown in a document.
- `dot` takes the drawings of every example, and a run over parts gives the same bytes as one run.

What calls a program that this machine lacks (dot, parallel, man) is skipped, and what follows it in a section of a document. The last line is
`N passed, M failed`, and tells how many were skipped, if any.
"""
import os
import re
import shutil
import subprocess
import sys
import tempfile
from difflib import unified_diff
from pathlib import Path

TOP = Path(__file__).resolve().parent.parent
DOCUMENTS = [path for files in ("*.md", "docs/*.md", "bench/*.md", "docs/man/*.1") for path in sorted(TOP.glob(files))]
TOOLS = sorted(path for path in TOP.glob("tools/*") if path.is_file() and path.suffix != ".py")
EXAMPLES = sorted(TOP.glob("examples/*.graph"))
MODELS = [], ["--model", "interval"], ["--model", "abs", "--paths", "2", "--nodes", "1000"]
NAMES = "flowpaths", "flowcheck", "flownear", "flowruns", "flownodes"
LACKED = [name for name in ("dot", "parallel", "man") if not shutil.which(name)]
ROFF = {r"\-": "-", r"\e": "\\", r"\(aq": "'", r"\(ha": "^", r"\(ti": "~", r"\&": ""}
SECONDS = 120
WIDEST = 160


class Counts:
    """How many checks passed, failed and were skipped."""

    def __init__(self):
        self.passed = self.failed = self.skipped = 0

    def check(self, where, faults):
        """Counts a check, and tells its faults."""
        for fault in faults:
            print(f"{where}: {fault}")
        self.passed += not faults
        self.failed += bool(faults)


def run(command, folder, **given):
    """What a command prints, standard error included, and its status. A text is one for the shell."""
    words = ["sh", "-c", command] if isinstance(command, str) else command
    settings = {"stdin": subprocess.DEVNULL, **given}
    try:
        done = subprocess.run(words, cwd=folder, stdout=subprocess.PIPE, stderr=subprocess.STDOUT, timeout=SECONDS, **settings)
    except subprocess.TimeoutExpired as late:
        return f"{(late.stdout or b'').decode(errors='backslashreplace')}\nno end after {SECONDS} seconds", -1
    return done.stdout.decode(errors="backslashreplace"), done.returncode


def plain(line):
    """A line of a manual page as it is shown."""
    return re.sub(r"\\(?:\(..|.)", lambda escape: ROFF.get(escape[0], escape[0]), line)


def parts_of(document):
    """The lines of a document, each with its number, and whether it stands in a block of code. A manual page's are as they are shown."""
    is_page = document.suffix == ".1"
    is_code = False
    for number, line in enumerate(document.read_text(encoding="utf-8").splitlines(), 1):
        if line == ".EX" if is_page else not is_code and line.startswith("```"):
            is_code = True
            yield number, line, True
        elif line == (".EE" if is_page else "```"):
            yield number, line, True
            is_code = False
        else:
            yield number, plain(line) if is_page else line, is_code


def blocks_of(document):
    """Of each block the number of its section, and its commands: of each the number of its line, its text, and the lines shown as its output."""
    commands, is_console, section = [], False, 0
    for number, line, is_code in parts_of(document):
        section += not is_code and re.match("#+ |[.]SH ", line) is not None
        if line in ("```console", ".EX"):
            commands, is_console = [], True
        elif line in ("```", ".EE"):
            yield section, commands
            commands, is_console = [], False
        elif is_code and is_console and line.startswith("$ "):
            commands.append((number, line[2:], []))
        elif is_code and commands:
            commands[-1][2].append(line)
        else:
            is_console = False


def check_commands(document, folder, counts):
    """Runs the commands of a document. From one on that calls a program which this machine lacks, its section is skipped."""
    skipped = None
    for section, commands in blocks_of(document):
        status = 0
        for number, command, shown in commands:
            if any(re.search(rf"(^|[\s|;&('])({name})(\s|$)", command) for name in LACKED):
                skipped = section
            if skipped == section:
                counts.skipped += 1
                continue
            printed, status = run(f"(exit {status})\n{command}", folder)
            difference = unified_diff(shown, printed.splitlines(), "shown", "printed", lineterm="")
            faults = "\n".join(difference)
            counts.check(f"{document.relative_to(TOP)}:{number}", [f"$ {command}\n{faults}"] if faults else [])


def is_there(name, files):
    """Whether a file that is named stands at the top, or somewhere below, where folders may be left out: graph_text/reader.rt is in graph_text/src."""
    pattern = re.sub(r"(?<![^/])[A-Z_]+(?![^/.])", "*", name.rstrip("/"))
    parts = "/(.*/)?".join(map(re.escape, name.split("/")))
    return (TOP / name).exists() or any(TOP.glob(pattern)) or any(re.fullmatch(f"(.*/)?{parts}", file) for file in files)


def names_in(line):
    """The files of this repository that a line names."""
    for name in re.findall(r"(?<![\w./$*-])[\w.*-]+(?:/[\w.*-]+)*/?", line):
        name = name.rstrip(".")
        is_below = re.match(r"(docs|bench|examples|tools|crates|[.]ci)/\w", name) and "/out/" not in f"{name}/"
        if is_below or re.search(r"\w[.](md|rt|antt|py|sh|svg)$", name):
            yield name


def lost_sections(document):
    """The sections that a document names, as `docs/FORMATS.md`, "Lines", and that are not there."""
    text = " ".join(line for _, line, is_code in parts_of(document) if not is_code)
    named = [(TOP / name, title) for name, title in re.findall(r'((?:docs/)?[A-Z]+[.]md)`?, "([^"]+)"', text)]
    return [f'{path.name} has no section "{title}"' for path, title in named if not path.is_file() or f"# {title}\n" not in path.read_text(encoding="utf-8")]


def check_text(document, files, counts):
    """Looks for files that are not there, and for long lines."""
    lost, long = [], []
    for number, line, is_code in parts_of(document):
        if is_code:
            continue
        links = [link.partition("#")[0] for link in re.findall(r"\]\(([^)\s]+)\)", line) if not re.match(r"\w+:", link)]
        lost += [f"line {number}: {link} is not there" for link in links if link and not (document.parent / link).exists()]
        lost += [f"line {number}: {name} is not there" for name in names_in(re.sub(r"\]\([^)]*\)", "]", line)) if not is_there(name, files)]
        if len(line) > WIDEST and not re.match(r"\||    ", line):
            long.append(f"line {number}: {len(line)} characters")
    counts.check(document.relative_to(TOP), lost + lost_sections(document))
    counts.check(document.relative_to(TOP), long)


def check_page(page, counts):
    if "man" in LACKED:
        counts.skipped += 1
        return
    shown, status = run(f"man --warnings -l {page} 2>&1 > /dev/null", TOP)
    counts.check(page.relative_to(TOP), [shown or f"status {status}"] if shown or status else [])


def check_tool(tool, shown, counts):
    """A tool can be called by its name, tells its usage, and stands in a document."""
    faults = []
    if not (os.access(tool, os.X_OK) and tool.read_bytes().startswith(b"#!")):
        faults.append("is no program")
    printed, status = run([tool, "--no-such-option"], TOP)
    if status != 2 or not printed.startswith(f"usage: {tool.name} "):
        faults.append(f"wrong arguments give status {status}, and: {printed}")
    if not any(f"tools/{tool.name}" in command for command in shown):
        faults.append("no document shows it")
    counts.check(f"tools/{tool.name}", faults)


def check_drawings(folder, counts):
    for example in EXAMPLES:
        for words in MODELS:
            if "dot" in LACKED:
                counts.skipped += 1
                continue
            for graph in ("", str(example)):
                command = f"flowpaths {' '.join(words)} {example} | {TOP}/tools/report_to_dot - {graph} > drawing && dot -Tsvg drawing 2>&1 > /dev/null"
                said, status = run(command, folder)
                counts.check(f"{example.name} {' '.join(words)}", [said or f"status {status}"] if said or status else [])


def check_parts(folder, counts):
    """A run over parts of all examples, with refusals, comments and blank lines among them, gives what one run gives."""
    text = b"\n  \n".join(example.read_bytes() for example in EXAMPLES) + b"# the end\n"
    Path(folder, "all.graph").write_bytes(text)
    run("flowpaths --nodes 100 all.graph > one.report", folder)
    for most in (1, 3, 1000):
        faults, _ = run(
            f"""rm -rf parts
            for part in $({TOP}/tools/split_graphs --most {most} parts all.graph)
            do flowpaths --nodes 100 $part > $part.report; echo $? > $part.status
            done
            {TOP}/tools/join_reports parts > joined.report
            cat parts/*.graph | cmp - all.graph
            cmp one.report joined.report
            flowcheck all.graph joined.report | grep -v yes
            echo 5 > parts/000001.graph.status
            {TOP}/tools/join_reports parts 2> note && echo joined in spite of a fault
            grep -q 'graph: status 5$' note || echo no note""", folder)
        counts.check(f"parts of {most}", [faults] if faults else [])


def main():
    given = sys.argv[1:]
    if len(given) != len(NAMES) or not all(map(os.path.isfile, given)):
        print(__doc__, file=sys.stderr)
        return 2
    counts = Counts()
    files = run(["git", "ls-files"], TOP)[0].splitlines()
    files = files if (TOP / "README.md").name in files else [str(path.relative_to(TOP)) for path in TOP.rglob("*")]
    with tempfile.TemporaryDirectory() as programs:
        for name, program in zip(NAMES, given):
            Path(programs, name).symlink_to(Path(program).resolve())
        os.environ.update(PATH=f"{programs}{os.pathsep}{os.environ['PATH']}", LC_ALL="C.UTF-8", PYTHONDONTWRITEBYTECODE="1")
        for document in DOCUMENTS:
            with tempfile.TemporaryDirectory() as folder:
                for entry in TOP.glob("[!.]*"):
                    Path(folder, entry.name).symlink_to(entry)
                check_commands(document, folder, counts)
            check_text(document, files, counts)
            if document.suffix == ".1":
                check_page(document, counts)
        shown = [command for document in DOCUMENTS for _, commands in blocks_of(document) for _, command, _ in commands]
        for tool in TOOLS:
            check_tool(tool, shown, counts)
        with tempfile.TemporaryDirectory() as folder:
            check_drawings(folder, counts)
            check_parts(folder, counts)
    print(f"{counts.passed} passed, {counts.failed} failed" + (f", {counts.skipped} skipped" if counts.skipped else ""))
    return 1 if counts.failed else 0


if __name__ == "__main__":
    sys.exit(main())
