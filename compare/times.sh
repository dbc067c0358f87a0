#!/bin/sh
# compare/times.sh [part ..]: times of the calls, the library beside the Rust, one thread, one run; parts: create, search, insert, delete, guard, read, numbers. Needs the
# Rattle kit, cargo (1.88 or newer) and the packages that compare/rust/README.md names; writes below target/, compare/rust/ and the folders crates/*/out only.
set -e
cd "$(dirname "$0")"
. ./build-histories.sh
RAYON_NUM_THREADS=1 exec "$histories" times "$@"
