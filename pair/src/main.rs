//! pair ORIGINALS PLACEHOLDERS [--line-ends] [--report FILE]: says for each placeholder which original it was made of.

use pair::names::shown;
use pair::picture;
use pair::reduce::{LINE_ENDS, PLAIN};
use pair::work::{pair, Job};
use std::ffi::OsString;
use std::io::{self, Write};
use std::path::PathBuf;
use std::process::ExitCode;

const USAGE: &str = "\
pair ORIGINALS PLACEHOLDERS [--line-ends] [--report FILE]

Finds for each picture of the folder PLACEHOLDERS the picture of the folder ORIGINALS that it was made of: PNG, JPEG and PNM. Prints a line for each,
with tabs between: placeholder, original, distance, distance of the second, \"sure\", \"not sure: ..\" or \"skipped\", and the original's figure number: the
number that its file name ends in, where no other has it, else a free one. What is skipped, and why, the originals that are not found by their own picture,
counts and times go to standard error.

  --line-ends      what stands at the line ends counts more: a picture becomes 14 x 14 grey values, of which those of the last two columns weigh 3,
                   in place of 16 x 16 that all weigh 1; distances are then by these weights
  --report FILE    also writes an HTML file that shows each pair side by side, those that are not sure first

The exit status is 0 where every file was read and every placeholder is sure, 1 where not, and 2 where the work could not be done.";

/// None where help is asked for.
fn arguments(mut given: impl Iterator<Item = OsString>) -> Result<Option<Job>, String> {
    let mut folders: Vec<PathBuf> = vec![];
    let mut report = None;
    let mut grid = PLAIN;
    let mut options = true;
    while let Some(word) = given.next() {
        let text = word.to_string_lossy();
        if options && (text == "--help" || text == "-h") {
            return Ok(None);
        } else if options && text == "--" {
            options = false;
        } else if options && text == "--line-ends" {
            grid = LINE_ENDS;
        } else if options && text == "--report" {
            let file = given.next().ok_or("--report needs the name of a file")?;
            if report.replace(PathBuf::from(file)).is_some() {
                return Err("--report is given twice".into());
            }
        } else if options && text.starts_with('-') {
            return Err(format!("there is no option {}", shown(&word)));
        } else {
            folders.push(word.into());
        }
    }
    match <[PathBuf; 2]>::try_from(folders) {
        Ok([originals, placeholders]) => Ok(Some(Job { originals, placeholders, grid, report })),
        Err(_) => Err("two folders are to be named: that of the originals and that of the placeholders".into()),
    }
}

fn main() -> ExitCode {
    picture::quiet_decoders();
    let done = match arguments(std::env::args_os().skip(1)) {
        Ok(Some(job)) => pair(&job),
        Ok(None) => {
            let _ = writeln!(io::stdout(), "{USAGE}");
            return ExitCode::SUCCESS;
        }
        Err(message) => Err(format!("{message}\n\n{USAGE}")),
    };
    match done {
        Ok(true) => ExitCode::SUCCESS,
        Ok(false) => ExitCode::from(1),
        Err(message) => {
            let _ = writeln!(io::stderr(), "pair: {message}");
            ExitCode::from(2)
        }
    }
}
