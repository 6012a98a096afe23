#!/bin/sh
# Tries the edits of bench/edits on a copy of the repository: the prover must refuse each.
# The gate tries those that tell most (crates/*/must-fail); try these before a release.
# usage: bench/try_edits.sh [CRATE..]      the crates whose edits are tried; none: all
set -eu
top=$(cd "$(dirname "$0")/.." && pwd)
[ $# -gt 0 ] || set -- $(ls "$top/bench/edits")
copy=$(mktemp -d)
trap 'rm -rf "$copy"' EXIT
git clone -q "$top" "$copy/tree"
cd "$copy/tree"
rm -f crates/*/must-fail/*.edit
for crate in "$@"; do
    mkdir -p "crates/$crate/must-fail"
    cp "bench/edits/$crate"/*.edit "crates/$crate/must-fail/"
done
rt must-fail "$@"
