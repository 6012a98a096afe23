#!/usr/bin/env bash
# Measures the checker on reports that the program writes. It builds nothing.
#
#     bench/check.sh PROGRAM CHECKER [DIVISOR]
#
# DIVISOR makes the file of many graphs smaller, for a trial. Each line: what was checked, bytes of the reports, wall seconds of the program that wrote
# them, wall seconds and peak memory in kB of the checker. It ends at the first report that gets no yes. It wants python3.
set -euo pipefail

if [ $# -lt 2 ] || [ $# -gt 3 ]; then
    sed -n '2,7p' "$0" >&2
    exit 2
fi
program=$(realpath "$1")
checker=$(realpath "$2")
divisor=${3:-1}
here=$(cd "$(dirname "$0")" && pwd)
folder=$(mktemp -d)
trap 'rm -rf "$folder"' EXIT

# row NAME WORD..: has the program report on the file `graphs` with these words, and checks the reports
row() {
    local name=$1 taken seconds wrote peak bytes
    shift
    taken=$(python3 "$here/measure.py" 0,1 "$folder/graphs" "$folder/reports" "$program" "$@")
    read -r wrote _ <<<"$taken"
    taken=$(python3 "$here/measure.py" 0 /dev/null "$folder/lines" "$checker" "$folder/graphs" "$folder/reports")
    read -r seconds peak <<<"$taken"
    bytes=$(stat -c %s "$folder/reports")
    echo "$name: $bytes B, written in $wrote s, checked in $seconds s, $peak kB"
}

for edges in tangled large; do
    python3 "$here/generate.py" "$edges" 10 >"$folder/graphs"
    for nodes in 10000 20000 50000; do
        row "10 $edges graphs, $nodes tokens" --nodes "$nodes"
    done
done
python3 "$here/generate.py" noisy 100 >"$folder/graphs"
row "100 noisy graphs, K = 2" --model abs --paths 2
for count in 10000 100000; do
    graphs=$((count / divisor))
    [ "$graphs" -gt 0 ] || graphs=1
    python3 "$here/generate.py" small "$graphs" >"$folder/graphs"
    row "$graphs small graphs"
    row "$graphs small graphs, safe runs" --safe
done
