#!/usr/bin/env bash
# Measures the searches of a built program on generated graphs of at most 60 edges. It builds nothing.
#
#     bench/search.sh PROGRAM [COUNT]
#
# COUNT graphs, 100 by default, are run with 1, 1,000, 20,000 and 50,000 tokens for each search. Each line: how many graphs are optimal by
# the width, how many by a tree, how many end in bounds, tokens printed, wall seconds, peak memory in kB. The reports of the first run and of
# that with 1,000 tokens are checked by check_sums.py. It wants python3.
set -euo pipefail

if [ $# -lt 1 ] || [ $# -gt 2 ]; then
    sed -n '2,8p' "$0" >&2
    exit 2
fi
program=$(realpath "$1")
count=${2:-100}
here=$(cd "$(dirname "$0")" && pwd)
folder=$(mktemp -d)
trap 'rm -rf "$folder"' EXIT

python3 "$here/generate.py" tangled "$count" >"$folder/input"
for nodes in 1 1000 20000 50000; do
    taken=$(python3 "$here/measure.py" 0,1 "$folder/input" "$folder/report" "$program" --nodes "$nodes")
    python3 - "$folder/report" "$nodes" $taken <<'PY'
import sys
report, nodes, seconds, peak = sys.argv[1:]
wide = tree = bounds = tokens = 0
with open(report) as lines:
    for line in lines:
        fields = line.split()
        if fields[0] == "mark":
            mark = fields[1]
            bounds += mark == "bounds"
        elif fields[0] == "cert" and fields[1] == "tree":
            tree += mark == "optimal"
            tokens += int(fields[4])
        elif fields[0] == "trail":
            tokens += int(fields[3])
        elif fields == ["end"]:
            wide += 1
print(f"--nodes {nodes}: {wide - tree - bounds} by the width, {tree} by a tree, {bounds} in bounds, {tokens} tokens printed, {seconds} s, {peak} kB")
PY
    if [ "$nodes" -le 1000 ]; then
        python3 "$here/check_sums.py" "$folder/input" "$folder/report" "$nodes"
    fi
done
