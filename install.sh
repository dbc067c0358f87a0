#!/bin/sh
# install.sh PREFIX: builds the archive (the crate `finder` and those below it are proved, if that was not done before) and puts it below PREFIX, with the
# headers, finder.pc for pkg-config, the package `finder` for CMake, and the licences. What is installed names no path, so PREFIX may be moved.
set -eu
if [ $# -ne 1 ]; then
    echo "usage: install.sh PREFIX" >&2
    exit 2
fi
mkdir -p "$1"
to=$(cd "$1" && pwd)
cd "$(dirname "$0")"

# the header's own number of the version: MAJOR, MINOR or PATCH
number() {
    sed -n "s/^#define FINDER_VERSION_$1 //p" include/finder.h
}
version=$(number MAJOR).$(number MINOR).$(number PATCH)

# filled FILE: a template with the version in it
filled() {
    sed "s/@VERSION@/$version/; s/@MAJOR@/$(number MAJOR)/" "packaging/$1"
}

(cd crates/finder && rt lib --cpu=x86-64)
mkdir -p "$to/include" "$to/lib/pkgconfig" "$to/lib/cmake/finder" "$to/share/doc/finder"
install -m 644 include/finder.h include/finder.hpp "$to/include"
install -m 644 crates/finder/out/libfinder.a "$to/lib"
install -m 644 packaging/finder-config.cmake "$to/lib/cmake/finder"
filled finder.pc.in >"$to/lib/pkgconfig/finder.pc"
filled finder-config-version.cmake.in >"$to/lib/cmake/finder/finder-config-version.cmake"
install -m 644 NOTICE "$to/share/doc/finder"
echo "finder $version is installed in $to"
