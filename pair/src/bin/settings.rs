//! settings ORIGINALS PLACEHOLDERS [--line-ends]: what degree, alpha and beam cost and give on these pictures.
//!
//! For each setting, the originals are inserted one to a call; printed are the time of one insert and of one search, how many originals do not find themselves,
//! of these how many no reference leads to, and for how many placeholders the search gives the nearest original, and the second nearest, that comparing
//! with all of them gives.

use pair::folder;
use pair::originals::{Originals, Settings};
use pair::picture;
use pair::reduce::{Grey, Grid, LINE_ENDS, PLAIN};
use std::path::Path;
use std::time::{Duration, Instant};

/// Degree, alpha and insert beam.
const TRIED: [(u32, f32, u32); 9] = [
    (16, 1.2, 64),
    (32, 1.0, 64),
    (32, 1.2, 64),
    (32, 1.2, 128),
    (32, 1.4, 128),
    (48, 1.2, 128),
    (64, 1.2, 64),
    (64, 1.2, 128),
    (64, 1.4, 128),
];

fn read(folder: &Path, grid: Grid) -> Result<Vec<Grey>, String> {
    let entries = folder::list(folder).map_err(|error| error.to_string())?;
    let plain = entries.iter().filter(|entry| entry.skipped.is_none());
    let mut reading = Duration::ZERO;
    Ok(plain.filter_map(|entry| picture::read(&folder.join(&entry.name), grid, false, &mut reading).ok()).map(|picture| picture.grey).collect())
}

/// The least two distances, by comparing with all originals that differ.
fn nearest(originals: &[Grey], placeholder: &[u8], grid: Grid) -> [u32; 2] {
    let mut least = [u32::MAX; 2];
    for original in originals {
        let distance = grid.distance(original, placeholder);
        if distance < least[0] {
            least = [distance, least[0]];
        } else if distance < least[1] {
            least[1] = distance;
        }
    }
    least
}

fn measure(originals: &[Grey], placeholders: &[Grey], right: &[[u32; 2]], settings: Settings, grid: Grid) -> Result<(), finder::Error> {
    let mut index = Originals::new(originals.len(), settings, grid)?;
    let start = Instant::now();
    for (original, grey) in originals.iter().enumerate() {
        index.add(original, original as u32 + 1, grey)?;
    }
    let inserting = start.elapsed();
    let start = Instant::now();
    let found = placeholders.iter().map(|grey| index.find(grey)).collect::<Result<Vec<_>, _>>()?;
    let searching = start.elapsed();
    // Only now, since from then on those that are missed are compared directly.
    let missed = index.missed()?;
    let unreached = missed.iter().filter(|missed| !missed.reached).count();
    let each = |time: Duration, count: usize| time.as_secs_f64() * 1e6 / count.max(1) as f64;
    let part = |right: usize| right as f64 / placeholders.len().max(1) as f64;
    let answers: Vec<[u32; 2]> =
        found.iter().map(|found| found.map_or([u32::MAX; 2], |found| [found.distance, found.second.map_or(u32::MAX, |(_, distance)| distance)])).collect();
    let first = answers.iter().zip(right).filter(|(answer, right)| answer[0] == right[0]).count();
    let second = answers.iter().zip(right).filter(|(answer, right)| answer[1] == right[1]).count();
    let Settings { degree, alpha, insert_beam, search_beam } = settings;
    println!(
        "| {degree} | {alpha:.1} | {insert_beam} | {search_beam} | {:.0} | {:.0} | {} | {unreached} | {:.4} | {:.4} |",
        each(inserting, originals.len()),
        each(searching, placeholders.len()),
        missed.len(),
        part(first),
        part(second)
    );
    Ok(())
}

fn main() -> Result<(), Box<dyn std::error::Error>> {
    let arguments: Vec<_> = std::env::args_os().skip(1).collect();
    let (originals, placeholders, grid) = match &arguments[..] {
        [originals, placeholders] => (originals, placeholders, PLAIN),
        [originals, placeholders, flag] if flag == "--line-ends" => (originals, placeholders, LINE_ENDS),
        _ => return Err("settings ORIGINALS PLACEHOLDERS [--line-ends]".into()),
    };
    let mut originals = read(Path::new(originals), grid)?;
    let placeholders = read(Path::new(placeholders), grid)?;
    // Originals with the same grey values share a slot.
    originals.sort_unstable();
    originals.dedup();
    // In the order of their bytes they would be inserted from dark to light.
    originals.sort_by_key(|grey| grey.iter().fold(1u64, |number, &value| (number ^ u64::from(value)).wrapping_mul(0x0100_0000_01b3)));
    let right: Vec<[u32; 2]> = placeholders.iter().map(|grey| nearest(&originals, grey, grid)).collect();
    println!("| degree | alpha | insert beam | search beam | insert, µs | search, µs | originals missed | unreached | nearest | second |");
    println!("|-:|-:|-:|-:|-:|-:|-:|-:|-:|-:|");
    for (degree, alpha, insert_beam) in TRIED {
        for search_beam in [16, 64] {
            measure(&originals, &placeholders, &right, Settings { degree, alpha, insert_beam, search_beam }, grid)?;
        }
    }
    Ok(())
}
