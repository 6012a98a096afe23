#!/usr/bin/env bash
# Measures searches under constraints, on ranges and for the least error, on generated graphs of at most 60 edges. It builds nothing.
#
#     bench/models.sh PROGRAM [COUNT]
#
# COUNT graphs of each kind, 100 by default. Each line: the kind and the words, how many graphs have each mark and certificate, tokens printed, the
# sum over the graphs in bounds of what lies between the bounds, wall seconds, peak memory in kB. It wants python3.
set -euo pipefail

if [ $# -lt 1 ] || [ $# -gt 2 ]; then
    sed -n '2,7p' "$0" >&2
    exit 2
fi
program=$(realpath "$1")
count=${2:-100}
here=$(cd "$(dirname "$0")" && pwd)
folder=$(mktemp -d)
trap 'rm -rf "$folder"' EXIT

run() {
    kind=$1
    shift
    taken=$(python3 "$here/measure.py" 0,1 "$folder/$kind" "$folder/report" "$program" "$@")
    python3 - "$folder/report" "$kind $*" $taken <<'PY'
import collections
import sys
report, words, seconds, peak = sys.argv[1:]
marks, tokens, between, lower = collections.Counter(), 0, 0, 0
with open(report) as lines:
    for line in lines:
        fields = line.split()
        if fields[0] == "mark":
            mark = fields[1]
        elif fields[0] == "lower":
            lower = fields[1]
        elif fields[0] == "upper" and mark == "bounds":
            between += int(fields[1]) - int(lower) if fields[1] != "none" else 0
            mark += " without answer" if fields[1] == "none" else ""
        elif fields[0] == "cert":
            marks[f"{mark} {fields[1]}"] += 1
            tokens += int(fields[4]) if fields[1] == "tree" else 0
        elif fields[0] == "trail":
            tokens += int(fields[3])
counts = ", ".join(f"{mark} {times}" for mark, times in sorted(marks.items()))
print(f"{words}: {counts}; {tokens} tokens, {between} between, {seconds} s, {peak} kB")
PY
}

for kind in tangled ruled ranges noisy; do
    python3 "$here/generate.py" "$kind" "$count" >"$folder/$kind"
done
python3 "$here/generate.py" rules >"$folder/rules"
for nodes in 1000 20000; do
    run tangled --nodes "$nodes"
    run ruled --nodes "$nodes"
    run ranges --model interval --nodes "$nodes"
    for k in 1 2 3 4; do
        run noisy --model abs --paths "$k" --nodes "$nodes"
    done
done
run rules --nodes 1
run rules --nodes 20000
