#!/bin/sh
# Installs what programs outside of this repository need: the C header, the static and the shared
# library, the pkg-config file and the Python module. All of it is made in a temporary directory
# first, so nothing is installed where something is missing.
set -euf
umask 022

usage() {
    cat <<'END'
usage: bindings/install.sh [--prefix=DIR] [--libdir=DIR] [--list | --uninstall | --help]

Installs the C header, the static and the shared library, the pkg-config file and the Python module.

  --prefix=DIR   install below DIR (default /usr/local)
  --libdir=DIR   put the libraries into DIR (default PREFIX/lib)
  --list         print the files that are installed, and do nothing
  --uninstall    remove these files
  --help         print this text

It needs a C compiler, cc or what CC names, and target/staticlib/libbwlchareg.a, which
`tools/build.sh library` makes; BWLCHAREG_LIB_DIR names another directory that has the archive.
With DESTDIR set, the files go below that directory instead, as packages need it.
END
}

die() {
    echo "install.sh: $1" >&2
    exit "${2:-1}"
}

# Each file's place, without DESTDIR.
files() {
    echo "$prefix/include/bwlchareg.h"
    echo "$libdir/libbwlchareg.a"
    echo "$libdir/$library"
    echo "$libdir/$soname"
    echo "$libdir/libbwlchareg.so"
    echo "$libdir/pkgconfig/bwlchareg.pc"
    echo "$prefix/share/bwlchareg/bwlchareg.py"
}

# A directory is absolute, and has no character that this script or pkg-config would misread.
check_directory() {
    case $2 in
    *[[:space:]\"\'\`\$\\\#\;\&\|\<\>\(\)]*)
        die "$1 must not have spaces, quotes or the like: $2" 2
        ;;
    /*) ;;
    *) die "$1 must be an absolute path: $2" 2 ;;
    esac
}

# Removes what was made on the way to an install that did not succeed.
clean_up() {
    rm -rf "$stage"
    for made in $unfinished; do rm -f "$made"; done
    for made in $new_directories; do rmdir "$made" 2>/dev/null || true; done
}

make_directory() {
    [ ! -d "$1" ] || return 0
    make_directory "$(dirname "$1")"
    mkdir "$1" || die "cannot make the directory $1; nothing is installed"
    new_directories="$1 $new_directories"
}

# The archive must fit the header: a program that is linked with it compares the versions.
check_archive() {
    command -v "${cc%% *}" >/dev/null || die "there is no C compiler $cc; nothing is installed"
    [ -f "$archive" ] || die "$archive is missing: $remedy"
    echo '#include <bwlchareg.h>
int main(void) { return bwlchareg_version() != BWLCHAREG_VERSION_NUMBER; }' >"$stage/fits.c"
    # shellcheck disable=SC2086 # CC may have options
    $cc -I"$source/c" "$stage/fits.c" "$archive" -o "$stage/fits" ||
        die "$archive cannot be linked: $remedy"
    "$stage/fits" || die "$archive is not of version $version: $remedy"
}

make_shared_library() {
    echo '{ global: bwlchareg_*; local: *; };' >"$stage/exports"
    # shellcheck disable=SC2086 # CC may have options
    $cc -shared -Wl,-soname,"$soname" -Wl,--version-script="$stage/exports" -Wl,-z,defs \
        -Wl,--whole-archive "$archive" -Wl,--no-whole-archive -o "$stage/$library" ||
        die "cannot make the shared library; nothing is installed"
    ln -s "$library" "$stage/$soname"
    ln -s "$soname" "$stage/libbwlchareg.so"
}

make_pkg_config_file() {
    cat >"$stage/bwlchareg.pc" <<END
prefix=$prefix
includedir=\${prefix}/include
libdir=$libdir

Name: bwlchareg
Description: Compliance checker for usage-constrained RT0 credentials
Version: $version
Cflags: -I\${includedir}
Libs: -L\${libdir} -lbwlchareg
END
}

# Copies every file beside its place, and puts them into place once all are there.
put_in_place() {
    for file in $(files); do
        make_directory "$(dirname "$destdir$file")"
        [ ! -d "$destdir$file" ] || die "$destdir$file is a directory; nothing is installed"
        unfinished="$unfinished $destdir$file.new"
        cp -P "$stage/${file##*/}" "$destdir$file.new" ||
            die "cannot write $destdir$file; nothing is installed"
    done
    for file in $(files); do
        mv -f "$destdir$file.new" "$destdir$file" || die "cannot replace $destdir$file"
    done
    new_directories=''
}

install_files() {
    unfinished='' new_directories='' stage=$(mktemp -d)
    trap clean_up EXIT
    trap 'exit 1' HUP INT TERM
    check_archive
    make_shared_library
    make_pkg_config_file
    cp "$source/c/bwlchareg.h" "$source/python/bwlchareg.py" "$archive" "$stage"
    put_in_place
    files
    echo "installed version $version; where these directories are not searched anyway, set
PKG_CONFIG_PATH=$libdir/pkgconfig LD_LIBRARY_PATH=$libdir PYTHONPATH=$prefix/share/bwlchareg"
}

uninstall_files() {
    for file in $(files); do rm -f "$destdir$file" || die "cannot remove $destdir$file"; done
    rmdir "$destdir$prefix/share/bwlchareg" 2>/dev/null || true
}

source=$(cd "$(dirname "$0")" && pwd)
root=$(dirname "$source")
cc=${CC:-cc}
archive=${BWLCHAREG_LIB_DIR:-$root/target/staticlib}/libbwlchareg.a
remedy="run \`tools/build.sh library\` in $root; nothing is installed"
version=$(sed -n 's/^#define BWLCHAREG_VERSION "\(.*\)"$/\1/p' "$source/c/bwlchareg.h")
library=libbwlchareg.so.$version
soname=${library%.*}
prefix=/usr/local libdir='' destdir=${DESTDIR:-} action=install_files
for option in "$@"; do
    case $option in
    --prefix=*) prefix=${option#*=} ;;
    --libdir=*) libdir=${option#*=} ;;
    --list) action=files ;;
    --uninstall) action=uninstall_files ;;
    --help) action=usage ;;
    *) usage >&2 && die "there is no option $option" 2 ;;
    esac
done
libdir=${libdir:-${prefix%/}/lib}
check_directory --prefix "$prefix"
check_directory --libdir "$libdir"
check_directory DESTDIR "${destdir:-/}"
prefix=${prefix%/}
"$action"
