#!/bin/sh
# Makes four shared objects of an archive: NAME-0.so, NAME-16.so, NAME-32.so and NAME-48.so. In each
# of them every function begins so many bytes after the beginning of a line of 64 bytes. With
# `turned` the functions come in the opposite order. docs/PERFORMANCE.md says what for.
#
# usage: sh bench/objects.sh ARCHIVE NAME [turned]
set -eu
archive=$1
name=$2
order='cat'
if [ "${3:-}" = turned ]; then order='tac'; fi

# A generic function's section has its types in its name, with spaces and other characters: so names are quoted, and what a
# pattern would read otherwise stands for any character.
functions=$(objdump -hw "$archive" |
    sed -nE 's/^ *[0-9]+ (\.text\..*[^ ]) +[0-9a-f]{8} +[0-9a-f]{16} .*/\1/p' | sed 's/[][*?\"]/?/g' | $order)
if [ -z "$functions" ]; then
    echo "$archive: no function has a section of its own" >&2
    exit 1
fi

for at in 0 16 32 48; do
    {
        echo 'SECTIONS { .code : {'
        echo "$functions" | sed "s/.*/. = ALIGN(64) + $at; *(\"&\")/"
        echo '} } INSERT AFTER .text;'
    } > "$name.ld"
    cc -shared -o "$name-$at.so" -Wl,-T,"$name.ld" \
        -Wl,--whole-archive "$archive" -Wl,--no-whole-archive
done
rm "$name.ld"
