#!/bin/sh
# compare/distance/lanes.sh [archive]: whether the archive's distances are summed 16 bytes at a time; exit code 1 where its object code has fewer than 16 pmaddwd,
# as many as one copy of `distance` has: four for 32 places and four for 16, where all weights are 1 and where they are read. A relative path is taken from the
# repository's root; where no archive is named, the library's is built. Needs the Rattle kit and objdump.
cd "$(dirname "$0")/../.." || exit 2
archive=${1:-crates/finder/out/libfinder.a}
[ $# -gt 0 ] || (cd crates/finder && rt lib --cpu=x86-64) > /dev/null 2>&1 || { echo "rt lib fails in crates/finder"; exit 2; }
[ -r "$archive" ] || { echo "$archive: not there"; exit 2; }
count=$(objdump -d "$archive" | grep -cw pmaddwd)
echo "$archive: pmaddwd $count times"
[ "$count" -ge 16 ]
