#!/bin/sh
# Times search, readings and pruning beside the Rust, one thread, one run. Needs the Rattle kit, cargo (1.88 or newer) and the packages that
# compare/rust/README.md names; writes below a new directory, which it removes, compare/rust/target/ and the folders crates/*/out only.
set -e
cd "$(dirname "$0")/.."
work=$(mktemp -d)
trap 'rm -rf "$work"' EXIT
mkdir -p "$work/crates/exports/src"
tar -c --exclude=out crates/lists crates/vectors crates/distances crates/candidates crates/slots crates/walk crates/prune | tar -x -C "$work"
{ grep -E '^(lists|vectors|distances|slots|candidates|walk|prune):' crates.txt; echo 'exports staticlib: lists vectors distances slots candidates walk prune'; } > "$work/crates.txt"
cat > "$work/crates/exports/src/lib.rt" <<'RT'
#![tactic(auto)]

ghost use Rattle.std.specs.Prelude.{◌≡◌, length};
ghost use Rattle.vectors.specs.Distance.{distance};
ghost use Rattle.vectors.specs.Vector.{Bytes};
ghost use Rattle.vectors.specs.Weights.{Weighing};
ghost use Rattle.slots.specs.Store.{arrays};
ghost use Rattle.slots.specs.Inner.Rows.{RowShape};
ghost use Rattle.walk.specs.Inner.Scratch as Scratch;
ghost use Rattle.prune.specs.Inner.Selecting as Selecting;

use distances::Kept;
use slots::{Graph, Rows};
use vectors::{Space, Weights};

#[unsafe(no_mangle)]
pub extern "C" fn exported_search<'a>(
    dim: usize,
    degree: usize,
    vectors: &'a [u8],
    weights: &'a [u8],
    targets: &'a [u32],
    edges: &'a [u16],
    versions: &'a [u16],
    marks: &'a [u8],
    query: &[u8],
    entry: u32,
    beam: usize,
    scratch: &mut [u32],
) -> usize
    requires weighed { Weighing weights.now × (length weights.now ≡ dim) }
    requires bytes { Bytes dim (length marks.now) vectors.now }
    requires shape { RowShape degree targets.now edges.now versions.now marks.now }
    requires ready { Scratch.Ready (arrays (distance weights.now) dim degree vectors.now targets.now edges.now versions.now marks.now) query.now entry beam scratch.old }
{
    let graph = Graph {
        space: Space { dim, weights: Weights::new(weights), vectors },
        rows: Rows { degree, targets, edges, versions, marks },
    };
    walk::search_pool(&graph, query, entry, beam, scratch)
}

#[unsafe(no_mangle)]
pub extern "C" fn exported_prune(
    alpha: f32,
    dim: usize,
    vectors: &[u8],
    weights: &[u8],
    marks: &[u8],
    source: u32,
    list: &mut [u32],
    out: &mut [u32],
) -> usize
    requires weighed { Weighing weights.now × (length weights.now ≡ dim) }
    requires ready { Selecting.Ready dim vectors.now marks.now list.old }
{
    let mut kept = Kept::<0>::new(Space { dim, weights: Weights::new(weights), vectors });
    prune::prune_scored(alpha, &mut kept, marks, source, list, out)
}
RT
(cd "$work/crates/exports" && rt lib --cpu=x86-64) > "$work/log" 2>&1 || { grep -E '^(rt:|fn exports)|error' "$work/log"; exit 1; }
(cd crates/finder && rt lib --cpu=x86-64) > "$work/log" 2>&1 || { grep -E '^(rt:|fn finder)|error' "$work/log"; exit 1; }
archives=$work/crates/exports/out:$(pwd)/crates/finder/out
cd compare/rust
./prepare.sh > /dev/null
LIBRARIES=$archives cargo build --release --offline -p beside --quiet
RAYON_NUM_THREADS=1 target/release/beside
