//! The library and the Rust in one process. `histories CALLS SEED`: random calls on both; exit code 1 if any call differs. With the word `first` it ends
//! at the first that differs; with `apart`, calls that can meet a tie are left out; with `emptied`, indexes are often emptied and filled again.
//! `histories times PART ..`: times of the calls that change an index. `histories year SEED BATCH`: a year of deliveries.
mod both;
mod calls;
mod draw;
mod finder;
mod guard;
mod lent;
mod second;
mod sound;
mod table;
mod ties;
mod times;
mod updates;
mod year;

use calls::{KINDS, TIED};

/// A call is carried out, refused with one of 16 numbers, or left out.
const NUMBERS: usize = TIED as usize + 1;

/// Calls are counted by the capacity of their index: up to each of these.
const CAPACITIES: [u32; 6] = [1, 24, 300, 4_000, 65_535, 65_536];

fn main() {
    let args: Vec<String> = std::env::args().skip(1).collect();
    match args[0].as_str() {
        "times" => return times::main(&args[1..]),
        "year" => return year::main(&args[1..]),
        _ => {}
    }
    let number = |place: usize| args[place].parse::<u64>().expect("histories CALLS SEED [first] [apart] [emptied]");
    let (calls, seed) = (number(0), number(1));
    let [first, apart, emptied] = ["first", "apart", "emptied"].map(|word| args[2..].iter().any(|a| a == word));
    let mut h = calls::begin(seed, apart, emptied);
    let mut counts = vec![[0u64; NUMBERS]; KINDS.len()]; // by the number given
    let mut differ = vec![0u64; KINDS.len()];
    let mut by_hand = 0u64; // how often state was written by hand
    let mut capacities = [0u64; CAPACITIES.len()]; // calls by the capacity of the index
    let mut large = vec![0u64; KINDS.len()]; // carried out on an index of more than 4,000 slots
    let mut weighted = vec![0u64; KINDS.len()]; // carried out on an index with a weight other than 1
    for call in 1..=calls {
        if h.rng.one_in(if emptied { 200 } else { 20 }) {
            h.both.by_hand(&mut h.rng);
            by_hand += 1;
        }
        let kind = calls::next_kind(&mut h);
        let outcome = (KINDS[kind].run)(&mut h);
        counts[kind][outcome.number as usize] += 1;
        capacities[CAPACITIES.iter().position(|&most| h.both.capacity() <= most).unwrap()] += 1;
        large[kind] += (outcome.number == 0 && h.both.capacity() > 4_000) as u64;
        weighted[kind] += (outcome.number == 0 && h.both.weighted()) as u64;
        if let Some(said) = outcome.differs {
            if differ.iter().all(|&n| n == 0) {
                let options = [(apart, "--published "), (emptied, "--emptied ")].map(|(given, option)| if given { option } else { "" }).concat();
                println!("first difference, in call {call} (to repeat: compare/histories.sh {options}{call} {seed}):\n{said}\n");
            }
            differ[kind] += 1;
            if first {
                break;
            }
        }
    }
    let on: Vec<String> = CAPACITIES.iter().zip(capacities).map(|(most, n)| format!("{n} up to {most}")).collect();
    println!("seed {seed}, {calls} calls, by the capacity of the index: {}", on.join(", "));
    let by_kind = |n: &[u64]| KINDS.iter().zip(n).map(|(kind, n)| format!("{} {n}", kind.name)).collect::<Vec<String>>().join(", ");
    println!("carried out on more than 4,000 slots: {}", by_kind(&large));
    println!("carried out with a weight other than 1: {} calls: {}", weighted.iter().sum::<u64>(), by_kind(&weighted));
    println!("state written by hand on both sides between calls: {by_hand} times");
    let second = &h.both.second;
    let (calls_on_second, done) = (second.calls, second.carried_out);
    println!("made on a second copy too, with other bytes in dead slots ({} overwritten): {calls_on_second} calls, {done} carried out", second.bytes);
    let numbers: Vec<usize> = (1..NUMBERS).filter(|&n| counts.iter().any(|c| c[n] > 0)).collect();
    let line = |name: &str, cells: Vec<String>| println!("{name:16}{}", cells.iter().map(|c| format!("{c:>12}")).collect::<String>());
    let head = |n: &usize| if *n == TIED as usize { "left out".to_string() } else { format!("refused {n}") };
    let heads = ["carried out".to_string()].into_iter().chain(numbers.iter().map(head)).chain(["differ".into()]);
    line("", heads.collect());
    let row = |c: &[u64; NUMBERS], d: u64| [c[0]].into_iter().chain(numbers.iter().map(|&n| c[n])).chain([d]).map(|n| n.to_string()).collect::<Vec<_>>();
    for (kind, (c, &d)) in KINDS.iter().zip(counts.iter().zip(&differ)) {
        line(kind.name, row(c, d));
    }
    let sum: [u64; NUMBERS] = std::array::from_fn(|n| counts.iter().map(|c| c[n]).sum());
    let all: u64 = differ.iter().sum();
    line("all", row(&sum, all));
    for (what, n) in &h.met {
        println!("{what}: {n}");
    }
    println!("{all} of {calls} calls differ");
    std::process::exit((all > 0) as i32);
}
