#!/bin/sh
# compare/profile.sh CALL: where the time of the library's calls goes in compare/times.sh, by function of the archive, in per cent of the samples that perf takes
# inside of them, with memset, which clears words. CALL is search, insert, delete, guard_enable, assess or guarded_delete. What is inlined counts for the function
# around it. Needs what compare/times.sh needs, and Debian's linux-perf and libc6-dbg (for the name of
# memset); writes below target/, compare/rust/ and the folders crates/*/out only.
set -e
cd "$(dirname "$0")"
case $1 in
  search | insert | delete) part=$1 ;;
  guard_enable | assess | guarded_delete) part=guard ;;
  *) sed -n 2,4p "${0##*/}"; exit 2 ;;
esac
. ./build-histories.sh
out=$(cd .. && pwd)/target/profile-$1
rm -rf "$out"
mkdir -p "$out"
mkfifo "$out/control" "$out/answer"
COUNTED=finder_$1 PIPES=$out RAYON_NUM_THREADS=1 perf record -q -N -e cpu-clock -F 5000 -D -1 --control fifo:"$out/control","$out/answer" -o "$out/data" \
  "$histories" times "$part" > "$out/times.txt" 2>&1
nm ../crates/finder/out/libfinder.a | awk '$2 ~ /[tT]/ { print $3 }' > "$out/functions"
perf report -i "$out/data" --stdio -F sample,symbol 2> /dev/null | awk '
  NR == FNR { library[$0]; next }
  $2 == "[.]" && ($3 in library || $3 ~ /^__memset/) { all += $1; count[$3] += $1 }
  END { for (name in count) printf "%5.1f %s\n", 100 * count[name] / all, name }' "$out/functions" - | sort -rn | awk '$1 >= 0.1'
