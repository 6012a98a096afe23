#!/usr/bin/env bash
# Measures a run over parts against one run, and sees that both write the same bytes and that the checker says yes to them. It builds nothing.
#
#     bench/parts.sh PROGRAM CHECKER [GRAPHS]
#
# GRAPHS small graphs, 50,000 by default, are cut into parts of 500. Each line: what was done, and its wall seconds. It wants python3 and GNU parallel.
set -euo pipefail

if [ $# -lt 2 ] || [ $# -gt 3 ]; then
    sed -n '2,6p' "$0" >&2
    exit 2
fi
program=$(realpath "$1")
checker=$(realpath "$2")
graphs=${3:-50000}
here=$(cd "$(dirname "$0")" && pwd)
folder=$(mktemp -d)
trap 'rm -rf "$folder"' EXIT
cd "$folder"
export program

# seconds NAME COMMAND..: runs a command, and prints how long it took
seconds() {
    local name=$1 begin=$EPOCHREALTIME
    shift
    "$@"
    python3 -c "print('$name: %.2f s' % ($EPOCHREALTIME - $begin))"
}

one() { "$program" all.graph >one.report || [ $? -le 2 ]; }
split() { "$here/../tools/split_graphs" --most 500 parts all.graph >names; }
solve() { parallel '"$program" {} > {}.report; echo $? > {}.status' :::: names; }
join() { "$here/../tools/join_reports" parts >all.report; }
check() { "$checker" all.graph all.report >lines; }

python3 "$here/generate.py" small "$graphs" >all.graph
echo "$graphs graphs, $(stat -c %s all.graph) B, $(nproc) processors"
seconds "one run" one
seconds "split" split
seconds "runs over $(wc -l <names) parts" solve
seconds "join" join
cmp one.report all.report
seconds "check" check
