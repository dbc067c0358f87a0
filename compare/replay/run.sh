#!/bin/sh
# Makes the list of the program `replay` anew, crates/replay/stdin, and what it must print, crates/replay/stdout. Needs python3, cargo (1.88 or newer) and the packages that
# compare/rust/README.md names. Two runs give the same bytes.
set -e
cd "$(dirname "$0")/../rust"
./prepare.sh > /dev/null
cargo build --release --offline --quiet -p oracle
cd ../replay
made=$(mktemp -d)
trap 'rm -rf "$made"' EXIT
python3 make.py ../rust/target/release/oracle "$made/stdin" "$made/stdout"
cat "$made/stdin" > ../../crates/replay/stdin
cat "$made/stdout" > ../../crates/replay/stdout
