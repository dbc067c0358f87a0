#!/bin/sh
# compare/peers.sh [--spoil] [part ..]: the library beside hnswlib, one thread, one process, CPU time. Parts, all where none is named:
#   graph: both search one graph, hnswlib's bottom layer; exit code 1 where they find other things
#   own:   each builds its own index of the same vectors; recall against time
#   year:  a year of deliveries and withdrawals on both; recall against time of what is left
# The last two are drawn in docs/peers.svg. --spoil: part graph, with some references of the library's graph blanked, which must end with exit code 1.
# Needs the Rattle kit, python3 and Debian's g++ and libhnswlib-dev; writes below target/ and the folders crates/*/out, and docs/peers.svg only.
set -e
cd "$(dirname "$0")/.."
spoil=
if [ "$1" = --spoil ]; then
  spoil=spoil
  set -- graph
fi
[ $# -gt 0 ] || set -- graph own year
for part; do
  case $part in graph | own | year) ;; *) sed -n 2p compare/peers.sh; exit 2 ;; esac
done
out=target/peers
mkdir -p "$out"
(cd crates/finder && rt lib --cpu=x86-64) > "$out/log" 2>&1 || { grep -E '^rt:|error|no proof' "$out/log"; exit 1; }
g++ -std=c++17 -O3 -Iinclude -o "$out/peers" compare/peers/main.cc crates/finder/out/libfinder.a
for part; do
  status=0
  "$out/peers" "$part" $spoil > "$out/$part.txt" || status=$?
  cat "$out/$part.txt"
  [ $status = 0 ] || exit $status
done
[ ! -e "$out/own.txt" ] || [ ! -e "$out/year.txt" ] || python3 -B compare/peers.py "$out/own.txt" "$out/year.txt" > docs/peers.svg
