#!/bin/sh
# pair/run.sh [COUNT] [SEED] [--line-ends]: the main job on a sample set. Builds `pair`, runs its tests, draws COUNT originals and COUNT placeholders (400 and seed 1
# where not given), pairs them, with --line-ends where that is given, and counts against the truth; then writes the report, and runs a small set under valgrind.
# Exit code 1 where a target is missed: the right original for 99 of 100 of the placeholders that have one, no pairing called sure that is wrong, at most 1.2 times
# the time that reading the pictures takes. Needs the Rattle kit, cargo, valgrind and Debian's librust-image-dev and librust-indicatif-dev;
# everything is written below target/, but for the folders crates/*/out, of which crates/finder/out has the archive.
set -eu
cd "$(dirname "$0")/.."
count=${1:-400}
seed=${2:-1}
flag=${3:-}
out=$PWD/target/pair
bin=$out/release
mkdir -p "$out"

(cd crates/finder && rt lib --cpu=x86-64) >"$out/archive.log" 2>&1 || { cat "$out/archive.log"; exit 1; }
(cd pair && cargo build --release --offline --quiet)
(cd pair && cargo test --release --offline) >"$out/tests.log" 2>&1 || { cat "$out/tests.log"; exit 1; }
awk '/^test result: ok/ { passed += $4 } END { print "tests: " passed " passed" }' "$out/tests.log"

# draw FOLDER COUNT: a sample set, if it is not there from a former run of the same program
draw() {
    if [ ! "$1/truth.tsv" -nt "$bin/sample" ]; then
        rm -rf "$1"
        "$bin/sample" "$1" "$2" "$seed"
    fi
}

# match NAME SAMPLE COMMAND..: pairs a sample set by a command; what it prints goes to NAME.tsv and NAME.txt. Exit status 1 says that some are not sure.
match() {
    name=$1 set=$2
    shift 2
    status=0
    "$@" "$set/originals" "$set/placeholders" --report "$out/$name.html" >"$out/$name.tsv" 2>"$out/$name.txt" || status=$?
    [ "$status" -le 1 ] || { cat "$out/$name.txt"; echo "$name: exit status $status"; exit 1; }
}

sample=$out/sample-$count-$seed
draw "$sample" "$count"
status=0
"$bin/pair" $flag "$sample/originals" "$sample/placeholders" >"$out/pairs.tsv" 2>"$out/pairs.txt" || status=$?
cat "$out/pairs.txt"
[ "$status" -le 1 ] || exit 1

# truth: placeholder, original or -, how it was made; pairs: placeholder, original, distance, second, verdict, figure number
awk -F '\t' -v status="$status" '
    FILENAME == ARGV[1] { truth[$1] = $2; how[$1] = $3; have += $2 != "-"; all++; next }
    FILENAME == ARGV[2] { if (/^time: /) { ratio = $0; sub(/.*ratio /, "", ratio); ratio += 0 } next }
    {
        lines++
        sure = $5 == "sure"
        unsure += !sure
        if (truth[$1] == "-") { strangers++; bad += sure }
        else if (truth[$1] == $2) { right++; certain += sure }
        else { bad += sure; print "wrong: " $0 "; its original is " truth[$1] " (" how[$1] ")" }
    }
    END {
        printf "with an original: %d, right %d (%.2f of 100), of these sure %d\n", have, right, have ? 100 * right / have : 100, certain
        printf "without an original: %d; called sure and wrong: %d\n", strangers, bad
        if (lines != all) { print "MISSED: " lines " lines for " all " placeholders"; failed = 1 }
        if (100 * right < 99 * have) { print "MISSED: the right original for 99 of 100"; failed = 1 }
        if (bad) { print "MISSED: no pairing called sure that is wrong"; failed = 1 }
        if (ratio > 1.2) { print "MISSED: 1.2 times the time of reading"; failed = 1 }
        if (status != (unsure > 0)) { print "MISSED: exit status " status; failed = 1 }
        exit failed
    }' "$sample/truth.tsv" "$out/pairs.txt" "$out/pairs.tsv"

match report "$sample" "$bin/pair" $flag
cmp "$out/pairs.tsv" "$out/report.tsv"
echo "report: target/pair/report.html ($(sed -n 's/^time: .*ratio \([0-9.]*\).*/\1/p' "$out/report.txt") times reading with it)"

draw "$out/sample-20-$seed" 20
match valgrind "$out/sample-20-$seed" \
    valgrind --error-exitcode=9 --leak-check=full --show-leak-kinds=definite --errors-for-leak-kinds=definite -q "$bin/pair" $flag
grep '==' "$out/valgrind.txt" && exit 1
echo "20 originals and 20 placeholders under valgrind: no finding"
