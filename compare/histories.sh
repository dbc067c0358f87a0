#!/bin/sh
# compare/histories.sh [--published] [--emptied] [calls] [seed]: random calls on the library and on the Rust, compared call by call; exit code 1 if any differs.
# With --published it is the Rust with its own sort (docs/DIFFERENCES.md, R-1), on inputs without ties: vectors and queries are drawn anew until no two slots
# are as far from a vector that is searched for or inserted; a search or an insert in which two still are is left out and counted.
# With --emptied, indexes are often emptied and filled again.
# Needs the Rattle kit, cargo (1.88 or newer) and the packages that compare/rust/README.md names; writes below target/, compare/rust/ and the folders crates/*/out only, but for
# the files of the Rust's indexes, in /dev/shm, which are removed as soon as they are mapped.
set -e
cd "$(dirname "$0")"
words=
while :; do
  case "$1" in
    --published) program=published words="$words apart" ;;
    --emptied) words="$words emptied" ;;
    *) break ;;
  esac
  shift
done
. ./build-histories.sh
RAYON_NUM_THREADS=1 exec "$histories" "${1:-100000}" "${2:-1}" $words
