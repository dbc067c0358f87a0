#!/bin/sh
# Makes asis/src and sorted/src from the published source. They are left as published but for the lines that it prints.
set -eu
cd "$(dirname "$0")"
S=source
for v in asis sorted; do
  mkdir -p $v/src
  cp "$S/lib.rs" $v/src/lib.rs
  cp "$S/mmap_dynamic.rs" $v/src/mmap_dynamic.rs
done
# Variant (b): the one changed line, the final sort of graph_search.
OLD='    results.sort_by(|a, b| a.dist.total_cmp(&b.dist));'
test "$(grep -cxF "$OLD" sorted/src/lib.rs)" = 1
sed -i 's/^    results\.sort_by(|a, b| a\.dist\.total_cmp(&b\.dist));$/    results.sort();/' sorted/src/lib.rs
test "$(grep -cxF '    results.sort();' sorted/src/lib.rs)" = 1
# Both variants: appended lines only (a child module sees the private items of its ancestors).
for v in asis sorted; do
  printf '\n#[path = "../../driver.rs"]\npub(crate) mod driver;\n' >> $v/src/mmap_dynamic.rs
  printf '\npub fn oracle_driver_main(args: Vec<String>) {\n    mmap_dynamic::driver::main(args)\n}\n' >> $v/src/lib.rs
  printf '\npub use mmap_dynamic::driver::beside::main as beside_main;\n' >> $v/src/lib.rs
  printf '\npub use mmap_dynamic::driver::histories;\n' >> $v/src/lib.rs
  echo "== $v/src/lib.rs"; diff "$S/lib.rs" $v/src/lib.rs || true
  echo "== $v/src/mmap_dynamic.rs"; diff "$S/mmap_dynamic.rs" $v/src/mmap_dynamic.rs || true
done
