#!/bin/sh
# compare/year.sh [--seed N] [--batch N] [--spoil PIECE]: a year of deliveries and withdrawals on the library and on the Rust, each on what its own last call
# left, with what becomes of the graph at the end of each month, read by the library's own functions. Exit code 1, with day and place, where an answer or, at
# the end of a day, a byte of the two indexes differs.
#
# Two years are run, about five minutes of CPU time in all: each delivery inserted by one call, and one vector at a time. They are drawn in docs/year.svg.
# --seed: 1 where not given. --batch: one year alone, with so many vectors to an insert at most; nothing is drawn. --spoil: changes one item of words, vectors,
# targets, edges, versions, marks, pool, numbers, summary or weights of the library's memory on day 40, which must end the run.
# Needs what compare/histories.sh needs, and python3; writes below target/, compare/rust/ and the folders crates/*/out, and docs/year.svg only.
set -e
cd "$(dirname "$0")"
seed=1 batches='300 1' piece= drawn=yes
while [ $# -gt 0 ]; do
  case $1 in
    --seed) seed=$2 ;;
    --batch) batches=$2 drawn= ;;
    --spoil) piece=$2 drawn= ;;
    *) sed -n 2p "${0##*/}"; exit 2 ;;
  esac
  shift 2
done
. ./build-histories.sh
for batch in $batches; do
  said=../target/year-$batch.txt status=0
  RAYON_NUM_THREADS=1 "$histories" year "$seed" "$batch" $piece > "$said" || status=$?
  cat "$said"
  [ $status = 0 ] || exit $status
done
[ -z "$drawn" ] || python3 -B year.py ../target/year-300.txt ../target/year-1.txt > ../docs/year.svg
