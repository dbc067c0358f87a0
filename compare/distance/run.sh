#!/bin/sh
# compare/distance/run.sh [commit]: times one distance beside Rust, with all weights 1 and with others; where a commit is named that has weights, beside that
# commit's too, in the same process. Needs the Rattle kit, rustc and binutils; writes below a new directory only, which it removes.
set -e
cd "$(dirname "$0")/../.."
work=$(mktemp -d)
trap 'rm -rf "$work"' EXIT

# library DIRECTORY: of the crates in it, a library with the one function below
library() {
    mkdir -p "$1/crates/exports/src"
    printf 'lists:\nvectors: lists\ndistances: lists vectors\nexports staticlib: lists vectors distances\n' > "$1/crates.txt"
    cat > "$1/crates/exports/src/lib.rt" <<'RT'
#![tactic(auto)]

ghost use Rattle.std.specs.Prelude.{◌≡◌, ◌≤◌, length};
ghost use Rattle.vectors.specs.Weights.{Weighing};

use vectors::{Space, Weights};

// The distances of a query and the vectors, as many as `to` has places, 64 at most. Whether all weights are 1 is found out once, as in a call of the library.
#[unsafe(no_mangle)]
pub extern "C" fn finder_distances(each: &[u8], query: &[u8], vectors: &[u8], to: &mut [u32])
    requires { Weighing each.now × (length query.now ≡ length each.now) × (length each.now ≤ 256) × (length to.old ≤ 64) }
{
    let dim = each.len();
    let space = Space {
        dim,
        weights: Weights::new(each),
        vectors,
    };
    for s in 0..to.len() {
        if dim <= vectors.len() && s * dim <= vectors.len() - dim {
            to[s] = distances::query_distance(&space, query, s);
        }
    }
}
RT
    (cd "$1/crates/exports" && rt lib --cpu=x86-64) > "$work/log" 2>&1 || { cat "$work/log"; exit 1; }
}

mkdir "$work/now"
tar -c --exclude=out crates/lists crates/vectors crates/distances | tar -x -C "$work/now"
library "$work/now"
before=
if [ $# -gt 0 ]; then
    mkdir "$work/before"
    git archive "$1" crates/lists crates/vectors crates/distances | tar -x -C "$work/before"
    library "$work/before"
    ld -r --whole-archive "$work/before/crates/exports/out/libexports.a" -o "$work/before.o"
    objcopy --redefine-sym finder_distances=finder_distances_before --keep-global-symbol=finder_distances_before "$work/before.o"
    before="--cfg before -C link-arg=$work/before.o"
fi
rustc -C opt-level=3 -L "$work/now/crates/exports/out" -l static=exports $before compare/distance/main.rs -o "$work/main"
"$work/main"
