#!/bin/sh
# Builds the archive of the crate `finder`, compiles the headers every way (headers.sh), and runs the examples that link it: those in C and C++ under valgrind and
# with the sanitizers of gcc and clang, and as programs outside the tree against an installed library (installed/run.sh); and the crate bindings/rust by its tests. Prints a
# line for each. Needs the Rattle kit, gcc, g++, clang, libclang-rt-dev, valgrind, pkg-config, cmake and cargo. Everything is written below target/, but for
# the folders crates/*/out, of which crates/finder/out has the archive, and what is built outside the tree, which is removed. None of it is part of the proof.
set -eu
cd "$(dirname "$0")/.."
out=$PWD/target/examples
mkdir -p "$out"

# step NAME COMMAND..: runs it, and shows what it said where it fails
step() {
    name=$1
    shift
    if "$@" >"$out/$name.log" 2>&1; then
        echo "$name: ok"
    else
        cat "$out/$name.log"
        echo "$name: failed"
        exit 1
    fi
}

step archive sh -c "cd crates/finder && rt lib --cpu=x86-64"
step only-memset sh -c "nm -u crates/finder/out/libfinder.a | awk '/ U / && \$2 != \"memset\" { print; bad = 1 } END { exit bad }'"
step headers examples/headers.sh
sed 's/^/  /' "$out/headers.log"

# example NAME COMPILER CLANG FILE: built and run under valgrind, then with the sanitizers of both compilers
lib=crates/finder/out/libfinder.a
strict="-Wall -Wextra -pedantic -Werror -Iinclude -g -pthread"
sanitize="-fsanitize=address,undefined -fno-sanitize-recover=all"
example() {
    step "$1-build" $2 $strict -o "$out/$1" "$4" "$lib"
    step "$1" valgrind --error-exitcode=1 --leak-check=full -q "$out/$1"
    sed 's/^/  /' "$out/$1.log"
    for compiler in "$2" "$3"; do
        short=${compiler%% *}
        step "$1-$short-build" $compiler $strict $sanitize -o "$out/$1-$short" "$4" "$lib"
        step "$1-$short-sanitizers" "$out/$1-$short"
    done
}
example c-first "gcc -std=c99" "clang -std=c99" examples/c/first.c
example c-shelf "gcc -std=c99" "clang -std=c99" examples/c/shelf.c
example cpp-first "g++ -std=c++11" "clang++ -std=c++11" examples/cpp/first.cpp
example cpp-test "g++ -std=c++11" "clang++ -std=c++11" examples/cpp/test.cpp
step cpp-test-threads valgrind --tool=helgrind --error-exitcode=1 -q "$out/cpp-test"

step installed examples/installed/run.sh
# the crate for Rust: its tests and the examples of its comments, each program under valgrind (the test harness keeps a thread's handle to its end, which
# is "possibly lost")
step rust-test cargo test --offline --manifest-path bindings/rust/Cargo.toml --target-dir "$out/rust" \
    --config 'target."cfg(all())".runner = ["valgrind", "--error-exitcode=9", "--leak-check=full", "--show-leak-kinds=definite", "--errors-for-leak-kinds=definite", "-q"]'
awk '/^test result: ok/ { passed += $4 } END { print "  " passed " tests passed" }' "$out/rust-test.log"
