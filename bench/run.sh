#!/usr/bin/env bash
# Measures a built program. It builds nothing, and keeps its files in a folder of its own, which it takes away at the end.
#
#     bench/run.sh PROGRAM [DIVISOR]
#
# DIVISOR makes every input smaller, for a trial: 1000 takes some seconds. It wants python3, wc, and 3 GB of room for files
# (under TMPDIR). Each line: what was read, its bytes, wall seconds, MB/s, graphs/s, peak memory of the program in kB.
set -euo pipefail

if [ $# -lt 1 ] || [ $# -gt 2 ]; then
    sed -n '2,7p' "$0" >&2
    exit 2
fi
program=$(realpath "$1")
divisor=${2:-1}
here=$(cd "$(dirname "$0")" && pwd)
folder=$(mktemp -d)
trap 'rm -rf "$folder"' EXIT

# row NAME FILE GRAPHS STATUS: runs the program on the file and prints a row
row() {
    local name=$1 file=$2 graphs=$3 status=$4 bytes taken seconds peak
    bytes=$(stat -c %s "$file")
    taken=$(python3 "$here/measure.py" "$status" "$file" "$folder/report" "$program")
    read -r seconds peak <<<"$taken"
    python3 - "$name" "$bytes" "$seconds" "$peak" "$graphs" <<'PY'
import sys
name, size, seconds, peak, graphs = sys.argv[1], *map(float, sys.argv[2:])
spent = max(seconds, 0.001)
print(f"{name:24} {size:13.0f} B {seconds:9.3f} s {size / spent / 1e6:9.1f} MB/s {graphs / spent:9.0f} graphs/s {peak:9.0f} kB")
PY
}

# whole GRAPHS: there are so many reports, each with its end
whole() {
    local ends
    ends=$(grep -c '^end$' "$folder/report" || true)
    if [ "$ends" != "$1" ]; then
        echo "bench: $ends reports in place of $1" >&2
        exit 1
    fi
}

echo "(a) comment and blank lines"
python3 "$here/generate.py" comments $((1000000000 / divisor)) >"$folder/input"
cat "$folder/input" >/dev/null
taken=$(python3 "$here/measure.py" 0 "$folder/input" "$folder/count" wc -l)
read -r lines_time _ <<<"$taken"
row "comments" "$folder/input" 0 0
if [ -s "$folder/report" ]; then
    echo "bench: a text without a graph has a report" >&2
    exit 1
fi
taken=$(python3 "$here/measure.py" 0 "$folder/input" "$folder/report" "$program")
read -r seconds _ <<<"$taken"
python3 -c "import sys; a, b = map(float, sys.argv[1:]); print(f'wc -l: {b:.3f} s, the program once more: {a:.3f} s, {a / max(b, 0.001):.1f} times')" "$seconds" "$lines_time"

echo "(b) small graphs"
for count in 10000 100000 1000000; do
    graphs=$((count / divisor))
    [ "$graphs" -gt 0 ] || graphs=1
    python3 "$here/generate.py" small "$graphs" >"$folder/input"
    row "$graphs graphs" "$folder/input" "$graphs" 0,1
    whole "$graphs"
    if [ "$count" = 10000 ]; then
        python3 "$here/check_sums.py" "$folder/input" "$folder/report"
    fi
done

echo "(c) one graph with names of 60,000 bytes, and comment and blank lines"
python3 "$here/generate.py" long $((1000000 / divisor)) >"$folder/input"
row "long names" "$folder/input" 1 0,1
whole 1
python3 "$here/check_sums.py" "$folder/input" "$folder/report"

echo "(d) graphs of 200 edges"
graphs=$((1000 / divisor))
[ "$graphs" -gt 0 ] || graphs=1
python3 "$here/generate.py" large "$graphs" >"$folder/input"
row "$graphs large graphs" "$folder/input" "$graphs" 0,1
whole "$graphs"
python3 "$here/generate.py" large 20 >"$folder/input"
python3 "$here/measure.py" 0,1 "$folder/input" "$folder/report" "$program" --nodes 200 >"$folder/taken"
python3 "$here/check_sums.py" "$folder/input" "$folder/report" 200
