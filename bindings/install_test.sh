#!/bin/sh
# Tests install.sh: installs into target/install, builds the C example from there, and sees that an
# install that fails says why and leaves nothing behind. The last line is `N passed, M failed`.
# shellcheck disable=SC2016 # nothing in single quotes is meant to be expanded
set -u
cd "$(dirname "$0")/.." || exit 2
unset CC DESTDIR BWLCHAREG_LIB_DIR
passed=0
failed=0
work=$(mktemp -d) || exit 2
trap 'rm -rf "$work"' EXIT
mkdir "$work/temporary" "$work/archive" "$work/prefix" && : >"$work/said"
version=$(sed -n 's/^#define BWLCHAREG_VERSION "\(.*\)"$/\1/p' bindings/c/bwlchareg.h)
prefix=$PWD/target/install
export LD_LIBRARY_PATH="$prefix/lib" PKG_CONFIG_PATH="$prefix/lib/pkgconfig"

# check WORDS COMMAND...: the command must succeed.
check() {
    words=$1
    shift
    if "$@" >"$work/out" 2>&1; then
        passed=$((passed + 1))
    else
        failed=$((failed + 1))
        echo "FAILED: $words"
        cat "$work/out"
    fi
}

# refused STATUS WORDS OPTION [VARIABLE=VALUE]: the install must end with this status, say these
# words, and leave everything as it was.
refused() {
    find "$work" >"$work/before"
    env TMPDIR="$work/temporary" ${4:+"$4"} bindings/install.sh "$3" >"$work/said" 2>&1
    [ $? -eq "$1" ] && cat "$work/said" && grep -qF -e "$2" "$work/said" &&
        find "$work" | diff "$work/before" -
}

# The files below a prefix are those that --list names.
has_listed_files() {
    bindings/install.sh --prefix="$1" --list | sort >"$work/listed"
    find "$1" ! -type d | sort | diff "$work/listed" -
}

# example PROGRAM FLAGS...: builds the C example with these flags, and compares what it prints. It
# is a copy that is built, since the header beside the example would come before the installed one.
example() {
    program=$work/$1
    shift
    cp bindings/c/example.c "$work" &&
        cc -std=c11 -Wall -Wextra -Wpedantic -Werror "$work/example.c" "$@" -o "$program" &&
        "$program" | diff bindings/c/example.out -
}

# The program loads the installed library, by its soname.
loads_installed() {
    soname=libbwlchareg.so.${version%.*}
    LD_TRACE_LOADED_OBJECTS=1 "$work/$1" | grep -F "$soname => $prefix/lib/$soname "
}

exports_the_calls() {
    nm -D --defined-only "$prefix/lib/libbwlchareg.so" | sed 's/.* bwlchareg_//' | tr '\n' ' ' |
        grep -x 'check check_query list verify version write '
}

rm -rf "$prefix"
check 'installs' bindings/install.sh --prefix="$prefix"
check 'installs again' bindings/install.sh --prefix="$prefix"
check 'the files are those of --list' has_listed_files "$prefix"
check 'static library' example static -I"$prefix/include" "$prefix/lib/libbwlchareg.a"
check 'shared library' example shared -I"$prefix/include" -L"$prefix/lib" -lbwlchareg
check 'shared library is loaded' loads_installed shared
check 'shared library exports the calls and no more' exports_the_calls
for line in "prefix=$prefix" 'includedir=${prefix}/include' "libdir=$prefix/lib" \
    "Version: $version" 'Cflags: -I${includedir}' 'Libs: -L${libdir} -lbwlchareg'; do
    check "bwlchareg.pc: $line" grep -xF "$line" "$prefix/lib/pkgconfig/bwlchareg.pc"
done
if command -v pkg-config >/dev/null; then
    # shellcheck disable=SC2046 # there are several flags
    check 'shared, by pkg-config' example flags $(pkg-config --cflags --libs bwlchareg)
    check 'shared, by pkg-config, is loaded' loads_installed flags
    # shellcheck disable=SC2046
    check 'static, by pkg-config' example path $(pkg-config --cflags bwlchareg) \
        "$(pkg-config --variable=libdir bwlchareg)/libbwlchareg.a"
else
    echo 'not tested: pkg-config is not installed'
fi
check 'DESTDIR' env DESTDIR="$work/package" bindings/install.sh --prefix=/usr --libdir=/usr/lib64
check 'libdir' test -f "$work/package/usr/lib64/libbwlchareg.so"
check 'no DESTDIR in bwlchareg.pc' \
    grep -x 'libdir=/usr/lib64' "$work/package/usr/lib64/pkgconfig/bwlchareg.pc"

to=--prefix=$work/prefix
check 'unknown option' refused 2 'there is no option --profix=/usr' --profix=/usr
check 'relative prefix' refused 2 '--prefix must be an absolute path: target' --prefix=target
check 'space in prefix' refused 2 '--prefix must not have spaces' "--prefix=$work/a b"
check 'prefix not writable' refused 1 'cannot make the directory /proc/new' --prefix=/proc/new
check 'no compiler' refused 1 'there is no C compiler no-cc' "$to" CC=no-cc
check 'no archive' refused 1 'libbwlchareg.a is missing: run `tools/build.sh library` in' \
    "$to" BWLCHAREG_LIB_DIR="$work/archive"
echo 'unsigned bwlchareg_version(void) { return 600; }' >"$work/old.c"
cc -c "$work/old.c" -o "$work/archive/libbwlchareg.a"
check 'old archive' refused 1 "is not of version $version" "$to" BWLCHAREG_LIB_DIR="$work/archive"
echo >"$work/archive/libbwlchareg.a"
check 'not an archive' refused 1 'cannot be linked' "$to" BWLCHAREG_LIB_DIR="$work/archive"
mkdir -p "$work/prefix/share/bwlchareg/bwlchareg.py"
check 'directory in the way' refused 1 'bwlchareg.py is a directory' "$to"
rm -r "$work/prefix/share" && echo >"$work/prefix/share"
check 'file in the way' refused 1 "cannot make the directory $work/prefix/share" "$to"

mv "$work/prefix/share" "$work/prefix/other"
check 'installs beside other files' bindings/install.sh "$to"
check 'uninstalls' bindings/install.sh "$to" --uninstall
check 'uninstalls its own files' test "$(find "$work/prefix" ! -type d)" = "$work/prefix/other"
check 'help' bindings/install.sh --help

echo "$passed passed, $failed failed"
[ "$failed" -eq 0 ]
