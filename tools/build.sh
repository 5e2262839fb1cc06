#!/bin/sh
# Builds what programs and tests outside of crates/ use, and puts it where they look for it:
#
#     tools/build.sh            both of these
#     tools/build.sh library    the static library, target/staticlib/libbwlchareg.a
#     tools/build.sh program    the listing program, target/bin/minimal_sets
#
# What has not been proved yet, or has changed, is proved first; without a proof nothing is built. With --after-ci as the first
# word it takes what `rt ci` has just proved and built in this checkout, as the gate does.
set -eu
cd "$(dirname "$0")/.."
after_ci=false
if [ "${1:-}" = --after-ci ]; then after_ci=true && shift; fi

library() {
    if $after_ci && has_libraries_of_ci; then
        library_over_ci
    else
        (cd crates/bwlchareg_c && rt lib)
    fi
    mkdir -p target/staticlib
    cp -f crates/bwlchareg_c/out/libbwlchareg_c.a target/staticlib/libbwlchareg.a
}

# `rt ci` builds each library anew and writes no stamp, so `rt lib` would prove them all again. A library with a stamp is of
# another command, which `rt ci` has put back.
has_libraries_of_ci() {
    ! ls crates/*/out/rlib/stamp >/dev/null 2>&1
}

# What `rt lib` does, but over the libraries of `rt ci` as they are.
library_over_ci() (
    kit=$(dirname "$(dirname "$(readlink -f "$(command -v rt)")")")
    set -- --extern "std=$kit/rlibs/std.rlib" -L "dependency=$kit/rlibs"
    # shellcheck disable=SC2013 # they are words of one line
    for name in $(sed -n 's/^bwlchareg_c staticlib://p' crates.txt); do
        set -- "$@" --extern "$name=$PWD/crates/$name/out/rlib/$name.rlib"
    done
    for rlib in "$PWD"/crates/*/out/rlib; do set -- "$@" -L "dependency=$rlib"; done
    cd crates/bwlchareg_c
    mkdir -p out
    "$kit/bin/rattle" build --crate-name bwlchareg_c --crate-type staticlib src/lib.rt "$@" \
        --antt-project "$kit/rattle/logic/antt-project.json" --logic-built "$kit/logic_built" \
        --toolchain "$kit/toolchain" -o out/libbwlchareg_c.a
)

program() {
    # `rt ci` leaves the program that it has run
    if ! $after_ci; then (cd crates/minimal_sets && rt run <stdin >/dev/null); fi
    mkdir -p target/bin
    cp -f crates/minimal_sets/out/minimal_sets target/bin/minimal_sets
}

case $* in
'')
    library
    program
    ;;
library) library ;;
program) program ;;
*) echo 'usage: tools/build.sh [--after-ci] [library | program]' >&2 && exit 2 ;;
esac
