#!/bin/sh
# Installs the library below a new directory outside the tree, and builds and runs the first programs there: with pkg-config and with CMake, each in C and C++.
# Needs the Rattle kit, gcc, g++, pkg-config and cmake.
set -eu
here=$(cd "$(dirname "$0")/.." && pwd)
work=$(mktemp -d)
trap 'rm -rf "$work"' EXIT
cp "$here/installed/CMakeLists.txt" "$here/c/first.c" "$here/cpp/first.cpp" "$work"
"$here/../install.sh" "$work/anywhere"
mv "$work/anywhere" "$work/prefix"
cd "$work"

# only what is installed is seen
if grep -rlI -e "$work" -e "$here" prefix; then
    echo "these files name a path" >&2
    exit 1
fi

PKG_CONFIG_PATH=$work/prefix/lib/pkgconfig
export PKG_CONFIG_PATH
header=$(sed -n 's/^#define FINDER_VERSION_[A-Z]* //p' prefix/include/finder.h | paste -sd.)
test "$(pkg-config --modversion finder)" = "$header"
gcc -std=c99 -o first-c first.c $(pkg-config --cflags --libs finder)
g++ -std=c++11 -o first-cpp first.cpp $(pkg-config --cflags --libs finder)
./first-c
./first-cpp

cmake -S . -B build -DCMAKE_PREFIX_PATH="$work/prefix"
cmake --build build
./build/first-c
./build/first-cpp

# another major version is not taken for this one
sed 's/finder 3\.0/finder 2.0/' CMakeLists.txt >other && mv other CMakeLists.txt
if cmake -S . -B build-1 -DCMAKE_PREFIX_PATH="$work/prefix" >other.log 2>&1; then
    echo "CMake takes version 3 for version 2" >&2
    exit 1
fi
grep -q 'version: 3\.' other.log
