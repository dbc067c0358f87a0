//! The work of `pair`: originals are read and inserted, the index checks itself, placeholders are read and searched, and the report is written.

use crate::folder::{self, Entry};
use crate::names::{figure_numbers, shown};
use crate::originals::{Found, Originals, Verdict, MOST, SETTINGS};
use crate::picture::{self, Picture};
use crate::reduce::Grid;
use crate::report::{self, Row, Shown};
use indicatif::{ProgressBar, ProgressStyle};
use std::fs::File;
use std::io::{self, BufWriter, Write};
use std::path::{Path, PathBuf};
use std::time::{Duration, Instant};

/// Two folders, how pictures are reduced, and where the report goes.
pub struct Job {
    pub originals: PathBuf,
    pub placeholders: PathBuf,
    pub grid: Grid,
    pub report: Option<PathBuf>,
}

/// A picture by its name as shown.
struct Named {
    name: String,
    thumb: Vec<u8>,
}

impl Named {
    fn shown(&self) -> Shown<'_> {
        Shown { name: &self.name, thumb: &self.thumb }
    }
}

/// A placeholder with what was found for it.
struct Pairing {
    placeholder: Named,
    found: Option<Found>,
    verdict: Option<Verdict>,
}

impl Pairing {
    fn is_sure(&self) -> bool {
        self.verdict.is_some_and(Verdict::is_sure)
    }

    fn verdict(&self) -> String {
        self.verdict.map_or("not sure: there is no original".into(), Verdict::text)
    }
}

/// Where the time went.
#[derive(Default)]
struct Times {
    reading: Duration,
    inserting: Duration,
    checking: Duration,
    searching: Duration,
    reporting: Duration,
}

/// The work as it stands.
struct Work {
    originals: Originals,
    named: Vec<Named>,
    pairings: Vec<Pairing>,
    grid: Grid,
    thumbs: bool,
    times: Times,
    /// What was said besides the pairs: on standard error at once, and at the head of the report.
    said: Vec<String>,
    /// How much is left for a person to look at, besides pairings that are not sure.
    complaints: usize,
}

fn progress(what: &'static str, length: usize) -> ProgressBar {
    let bar = ProgressBar::new(length as u64);
    if let Ok(style) = ProgressStyle::with_template("{msg:12} {wide_bar} {pos}/{len} {eta}") {
        bar.set_style(style);
    }
    bar.set_message(what);
    bar
}

fn refused(error: finder::Error) -> String {
    format!("the index: {error}")
}

fn not_written(error: io::Error) -> String {
    format!("standard output: {error}")
}

impl Work {
    fn say(&mut self, bar: &ProgressBar, line: String) {
        // Where nobody listens, the work goes on.
        let _ = bar.suspend(|| writeln!(io::stderr(), "{line}"));
        self.said.push(line);
    }

    fn complain(&mut self, bar: &ProgressBar, line: String) {
        self.complaints += 1;
        self.say(bar, line);
    }

    /// Reads one entry of a folder, or says why not.
    fn read(&mut self, folder: &Path, entry: &Entry) -> Result<Picture, String> {
        match entry.skipped {
            Some(reason) => Err(reason.into()),
            None => picture::read(&folder.join(&entry.name), self.grid, self.thumbs, &mut self.times.reading),
        }
    }

    fn insert_all(&mut self, folder: &Path, entries: &[Entry]) -> Result<(), String> {
        let bar = progress("originals", entries.len());
        let plain = entries.iter().filter(|entry| entry.skipped.is_none());
        let mut numbers = figure_numbers(plain.map(|entry| entry.name.as_os_str())).into_iter();
        for entry in entries {
            let name = shown(&entry.name);
            let number = if entry.skipped.is_none() { numbers.next() } else { None };
            match self.read(folder, entry) {
                Ok(picture) => {
                    let start = Instant::now();
                    self.originals.add(self.named.len(), number.unwrap_or_default(), &picture.grey).map_err(refused)?;
                    self.times.inserting += start.elapsed();
                    self.named.push(Named { name, thumb: picture.thumb });
                }
                Err(reason) => self.complain(&bar, format!("skipped original {name}: {reason}")),
            }
            bar.inc(1);
        }
        bar.finish_and_clear();
        let (read, different) = (self.named.len(), self.originals.different());
        self.say(&bar, format!("originals: {read} read, {} skipped, {different} different", entries.len() - read));
        Ok(())
    }

    /// Every original must find itself.
    fn check(&mut self) -> Result<(), String> {
        let bar = ProgressBar::hidden();
        let start = Instant::now();
        let missed = self.originals.missed().map_err(refused)?;
        self.times.checking = start.elapsed();
        for missed in &missed {
            let why = if missed.reached { "the walk does not find it" } else { "no reference leads to it" };
            let name = &self.named[missed.original].name;
            self.say(&bar, format!("original not reached: {name} ({why}); it is compared with every placeholder"));
        }
        self.say(&bar, format!("self-check: {} of {} originals find themselves", self.named.len() - missed.len(), self.named.len()));
        Ok(())
    }

    /// The line of a placeholder that was read.
    fn search(&mut self, name: String, picture: Picture) -> Result<String, String> {
        let start = Instant::now();
        let found = self.originals.find(&picture.grey).map_err(refused)?;
        self.times.searching += start.elapsed();
        let verdict = found.map(|found| Verdict::of(self.grid, &picture.grey, &found, self.originals.different()));
        let pairing = Pairing { placeholder: Named { name, thumb: picture.thumb }, found, verdict };
        let (original, distance, number) = match found {
            Some(found) => (self.named[found.original].name.as_str(), found.distance.to_string(), found.number.to_string()),
            None => ("-", "-".into(), "-".into()),
        };
        let second = found.and_then(|found| found.second).map_or("-".into(), |(_, distance)| distance.to_string());
        let line = format!("{}\t{original}\t{distance}\t{second}\t{}\t{number}", pairing.placeholder.name, pairing.verdict());
        self.pairings.push(pairing);
        Ok(line)
    }

    fn search_all(&mut self, folder: &Path, entries: &[Entry]) -> Result<(), String> {
        let mut out = BufWriter::new(io::stdout().lock());
        let bar = progress("placeholders", entries.len());
        for entry in entries {
            let name = shown(&entry.name);
            let line = match self.read(folder, entry) {
                Ok(picture) => self.search(name, picture)?,
                Err(reason) => {
                    self.complain(&bar, format!("skipped placeholder {name}: {reason}"));
                    format!("{name}\t-\t-\t-\tskipped\t-")
                }
            };
            writeln!(out, "{line}").map_err(not_written)?;
            if !bar.is_hidden() {
                // Bar and lines may share a terminal.
                bar.suspend(|| out.flush()).map_err(not_written)?;
            }
            bar.inc(1);
        }
        bar.finish_and_clear();
        out.flush().map_err(not_written)?;
        let (read, sure) = (self.pairings.len(), self.sure());
        self.say(&bar, format!("placeholders: {read} read, {} skipped, {sure} sure, {} not sure", entries.len() - read, read - sure));
        Ok(())
    }

    fn sure(&self) -> usize {
        self.pairings.iter().filter(|pairing| pairing.is_sure()).count()
    }

    fn report(&self, file: File) -> io::Result<()> {
        let verdicts: Vec<String> = self.pairings.iter().map(Pairing::verdict).collect();
        let rows: Vec<Row<'_>> = self
            .pairings
            .iter()
            .zip(&verdicts)
            .map(|(pairing, verdict)| Row {
                placeholder: pairing.placeholder.shown(),
                original: pairing.found.map(|found| (self.named[found.original].shown(), found.distance)),
                second: pairing.found.and_then(|found| found.second).map(|(second, distance)| (self.named[second].shown(), distance)),
                sure: pairing.is_sure(),
                verdict,
            })
            .collect();
        report::write(&mut BufWriter::new(file), &self.said, &rows)
    }

    fn say_times(&mut self, whole: Duration) {
        let seconds = |time: Duration| format!("{:.2} s", time.as_secs_f64());
        let times = &self.times;
        let ratio = if times.reading.is_zero() { 1.0 } else { whole.as_secs_f64() / times.reading.as_secs_f64() };
        let line = format!(
            "time: whole {}, reading {}, ratio {ratio:.3} (inserting {}, self-check {}, searching {}, writing the report {})",
            seconds(whole),
            seconds(times.reading),
            seconds(times.inserting),
            seconds(times.checking),
            seconds(times.searching),
            seconds(times.reporting)
        );
        self.say(&ProgressBar::hidden(), line);
    }
}

/// Does the job: true where nothing is left to look at, an error where it could not be done.
pub fn pair(job: &Job) -> Result<bool, String> {
    let start = Instant::now();
    let at = |path: &Path, error: io::Error| format!("{}: {error}", shown(path.as_os_str()));
    let originals = folder::list(&job.originals).map_err(|error| at(&job.originals, error))?;
    let placeholders = folder::list(&job.placeholders).map_err(|error| at(&job.placeholders, error))?;
    let files = originals.iter().filter(|entry| entry.skipped.is_none()).count();
    if files > MOST {
        return Err(format!("{files} originals are more than the {MOST} that one index holds; pair them in several runs"));
    }
    // Opened first, so that a wrong name does not cost the work.
    let report = job.report.as_ref().map(|path| File::create(path).map_err(|error| at(path, error))).transpose()?;
    let mut work = Work {
        originals: Originals::new(files, SETTINGS, job.grid).map_err(refused)?,
        named: vec![],
        pairings: vec![],
        grid: job.grid,
        thumbs: report.is_some(),
        times: Times::default(),
        said: vec![],
        complaints: 0,
    };
    work.insert_all(&job.originals, &originals)?;
    work.check()?;
    work.search_all(&job.placeholders, &placeholders)?;
    if let Some(file) = report {
        let begun = Instant::now();
        work.report(file).map_err(|error| format!("the report: {error}"))?;
        work.times.reporting = begun.elapsed();
    }
    work.say_times(start.elapsed());
    Ok(work.complaints == 0 && work.sure() == work.pairings.len())
}
