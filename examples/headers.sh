#!/bin/sh
# The headers under every standard that they are for, with gcc and clang, and every warning an error: each by itself and twice, and with the examples; the
# mistakes of misuse.c and misuse.cpp, each of which must be refused; and a machine whose size_t has 32 bits, which must be refused too. Needs gcc, g++ and clang;
# neither the archive nor the Rattle kit. Prints a line for each kind.
set -eu
cd "$(dirname "$0")/.."
out=$PWD/target/examples
mkdir -p "$out"
log=$out/headers.last

# what is asked of the headers and the examples, and what the headers bear besides
strict='-Wall -Wextra -pedantic -Werror -Iinclude -O2 -c -o /dev/null'
more='-Wshadow -Wconversion -Wsign-conversion -Wcast-qual -Wcast-align -Wundef -Wfloat-equal -Wswitch-default'

fail() {
    cat "$log"
    echo "headers: $*: failed"
    exit 1
}

# accepts COMMAND..: it compiles without a word
accepts() {
    "$@" >"$log" 2>&1 || fail "$@"
    test ! -s "$log" || fail "$@"
}

# refuses TEXT COMMAND..: it does not compile, and says so
refuses() {
    text=$1
    shift
    if "$@" >"$log" 2>&1; then fail "$@"; fi
    grep -q "$text" "$log" || fail "$@"
}

printf '#include "finder.h"\n#include "finder.h"\n' >"$out/alone.c"
printf '#include "finder.hpp"\n#include "finder.hpp"\n#include "finder.h"\n' >"$out/alone.cpp"
cp "$out/alone.c" "$out/alone-c.cpp"

for cc in gcc clang; do
    for std in c99 c11 c17; do
        accepts $cc -std=$std $strict $more -Wstrict-prototypes "$out/alone.c"
        accepts $cc -std=$std $strict -ffreestanding "$out/alone.c"
        for file in examples/c/first.c examples/c/shelf.c; do
            accepts $cc -std=$std $strict $file
        done
    done
done
echo "headers: C99, C11 and C17 with gcc and clang: ok"

for cc in g++ clang++; do
    for std in c++11 c++14 c++17 c++20; do
        accepts $cc -std=$std $strict $more "$out/alone-c.cpp"
        accepts $cc -std=$std $strict $more -fno-exceptions -fno-rtti "$out/alone.cpp"
        for file in examples/cpp/first.cpp examples/cpp/test.cpp; do
            accepts $cc -std=$std $strict $file
        done
    done
done
echo "headers: C++11, C++14, C++17 and C++20 with g++ and clang++: ok"

for cc in gcc clang; do
    accepts $cc -std=c11 $strict -DMISUSE=0 examples/c/misuse.c
    for n in 1 2 3 4 5 6 7 8 9 10 11 12 13 14 15; do
        refuses 'misuse.c:.*error' $cc -std=c11 $strict -DMISUSE=$n examples/c/misuse.c
    done
done
for cc in g++ clang++; do
    for std in c++11 c++17; do
        accepts $cc -std=$std $strict -DMISUSE=0 examples/cpp/misuse.cpp
        for n in 1 2 3 4 5 6 7 8 9 10 11 12 13 14; do
            refuses 'misuse.cpp:.*error' $cc -std=$std $strict -DMISUSE=$n examples/cpp/misuse.cpp
        done
    done
done
echo "headers: 15 mistakes in C and 14 in C++ are refused: ok"

for cc in gcc clang; do
    refuses 'size_t must have 64 bits' $cc -m32 -ffreestanding -Iinclude -fsyntax-only "$out/alone.c"
done
echo "headers: a size_t of 32 bits is refused: ok"
