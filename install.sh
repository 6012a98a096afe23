#!/bin/sh
# Proves and builds the programs flowpaths, flowcheck, flownear, flowruns and flownodes, and puts them and their manual pages below a folder.
#
#     sh install.sh [PREFIX]
#
# PREFIX is $HOME/.local where none is given. Written are the five programs in PREFIX/bin, their pages in PREFIX/share/man/man1, and the folders crates/*/out of this repository.
# It needs the command `rt` of the Rattle kit and Python 3.8 or later, no network and no root.
# It ends with status 0 where all of it was done, 1 where a step failed, and 2 at wrong arguments.

say() {
    printf 'install.sh: %s\n' "$*"
}

fail() {
    say "$@" >&2
    exit 1
}

usage() {
    echo 'usage: sh install.sh [PREFIX]' >&2
    exit 2
}

# needs COMMAND WHAT: stops where the command is not on PATH.
needs() {
    command -v "$1" >/dev/null 2>&1 || fail "$1 is not on PATH. $2"
}

# build PROGRAM ARGUMENT..: proves and builds it, and runs it once on an empty input.
build() {
    program=$1
    shift
    say "proving and building $program"
    (cd "$top/crates/${program}_run" && rt run -- "$@" </dev/null) ||
        fail "$program was not proved or not built: see the lines above. Nothing was put below $prefix."
    [ -x "$top/crates/${program}_run/out/${program}_run" ] ||
        fail "rt left no program at crates/${program}_run/out/${program}_run. Nothing was put below $prefix."
}

# put FILE PLACE MODE: copies a file. A program that runs at that place goes on undisturbed.
put() {
    cp "$1" "$2.new" && chmod "$3" "$2.new" && mv -f "$2.new" "$2" || fail "$2 cannot be written."
}

[ $# -le 1 ] || usage
case ${1-} in
    -*) usage ;;
esac
prefix=${1:-${HOME:+$HOME/.local}}
[ -n "$prefix" ] || fail 'HOME is not set. Say where to put the programs: sh install.sh PREFIX'
case $prefix in
    /*) ;;
    *) prefix=$PWD/$prefix ;;
esac
top=$(cd "$(dirname "$0")" && pwd) || fail 'the folder of install.sh cannot be entered.'

needs python3 'rt is a program of Python: install Python 3.8 or later.'
needs rt "It stands in the folder bin of the Rattle kit. Where the kit lies in KIT, run: PATH=KIT/bin:\$PATH"

mkdir -p "$prefix/bin" "$prefix/share/man/man1" || fail "the folders below $prefix cannot be made."

if [ ! -x "$top/crates/flowpaths_run/out/flowpaths_run" ]; then
    say 'a first build proves every function: some half an hour on four processors. A run that was cut off goes on where it was.'
fi
build flowpaths
build flowcheck /dev/null -
build flownear
build flowruns
build flownodes

for program in flowpaths flowcheck flownear flowruns flownodes; do
    put "$top/crates/${program}_run/out/${program}_run" "$prefix/bin/$program" 755
    put "$top/docs/man/$program.1" "$prefix/share/man/man1/$program.1" 644
done

graph=$top/examples/wagons.graph
answer=$("$prefix/bin/flowpaths" "$graph" | "$prefix/bin/flowcheck" "$graph" -)
[ "$answer" = 'graph 1 yes' ] || fail "a trial run of the programs in $prefix/bin failed: $answer"

say "flowpaths, flowcheck, flownear, flowruns and flownodes stand in $prefix/bin, and a trial run of the first two gave: $answer"
case :$PATH: in
    *":$prefix/bin:"*)
        say "$prefix/bin is on PATH: all are ready, and so are man flowpaths, man flowcheck, man flownear, man flowruns and man flownodes."
        ;;
    *)
        say "$prefix/bin is not on PATH. Put this line into ~/.profile, and into this shell:"
        echo "    PATH=\"$prefix/bin:\$PATH\""
        ;;
esac
