#!/bin/sh
# Prints the table of docs/CHECKS.md: for each crate its lines of definitions, inner contracts, code and proof, its must-fail edits, and the seconds of its
# proof in a run from nothing. A line that is blank or only a comment is not counted. docs/checks.sh LOG takes the seconds from what an earlier run left in target/checks.log; without it, all is proved first, one crate after the other
# (needs the Rattle kit).
set -eu
if [ $# -gt 0 ]; then out=$(realpath "$1"); fi
cd "$(dirname "$0")/.."
if [ $# -eq 0 ]; then
    out=$PWD/target/checks.log
    mkdir -p target
    # each line behind the second in which it comes; a crate's lines come when it is proved, and the first of them is `== NAME`
    { echo begins; rt all verdict --jobs 1 2>&1; } | while IFS= read -r line; do echo "$(date +%s) $line"; done >"$out"
    awk 'END { exit !(NF == 6 && $2 == $4 && $6 == "ok") }' "$out" || { grep -E '^[0-9]+ rt:|no proof|not proved' "$out" >&2; exit 1; }
fi

# lines FOLDER SUFFIX COMMENT [WORDS for find]: the lines of the files with this suffix in a folder and below it
lines() {
    folder=$1 suffix=$2 comment=$3
    shift 3
    if [ -d "$folder" ]; then find "$folder" "$@" -name "*.$suffix" -exec cat {} +; fi |
        awk -v c="$comment" 'NF && index($1, c) != 1 { n++ } END { print n + 0 }'
}

edits() {
    if [ -d "$1" ]; then find "$1" -name '*.edit'; fi | awk 'END { print NR }'
}

seconds() {
    awk -v name="$1" 'NR == 1 { before = $1 } $2 == "==" { if ($3 == name) { s = $1 - before; found = 1 } before = $1 } END { print found ? s : "?" }' "$out"
}

{
    sed 's/#.*//' crates.txt | awk -F: 'NF > 1 { split($1, word, " "); print word[1] }' | while read -r name; do
        crate=crates/$name
        echo "$name $(lines "$crate/specs" antt -- -maxdepth 1) $(lines "$crate/specs/Inner" antt --) $(lines "$crate/src" rt //) $(lines "$crate/proofs" antt --) $(edits "$crate/must-fail") $(seconds "$name")"
    done
} | awk '
    BEGIN {
        print "| crate | definitions (lines) | inner contracts (lines) | code (lines) | proofs (lines) | must-fail edits | proof (s) |"
        print "|-|-:|-:|-:|-:|-:|-:|"
    }
    { print "| `" $1 "` | " $2 " | " $3 " | " $4 " | " $5 " | " $6 " | " $7 " |"; for (i = 2; i <= 7; i++) sum[i] += $i }
    END { print "| all | " sum[2] + 0 " | " sum[3] + 0 " | " sum[4] + 0 " | " sum[5] + 0 " | " sum[6] + 0 " | " sum[7] + 0 " |" }'
