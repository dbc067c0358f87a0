//! Driver around the unchanged Rust. Compiled as a child module of `mmap_dynamic`
//! (see prepare.sh), so it sees the private fields. The line format is in README.md.

use super::*;

#[path = "beside.rs"]
pub mod beside;
#[path = "histories.rs"]
pub mod histories;

use std::fmt::Write as _;
use std::io::{BufRead, Write as _};
use std::panic::{AssertUnwindSafe, catch_unwind};
use std::sync::atomic::{AtomicU64, Ordering as AO};

// ---------------------------------------------------------------- distance

/// Sum of squared differences, each times the weight of its place where there are weights (E3), exact in f32 below 2^24.
#[derive(Clone, Copy, Default)]
pub(crate) struct Sq {
    w: Option<&'static [u8]>,
}

impl Sq {
    /// With these weights; where all are 1, as without.
    pub(crate) fn weighted(weights: &[u8]) -> Sq {
        Sq { w: weights.iter().any(|&w| w != 1).then(|| &*weights.to_vec().leak()) }
    }
}

#[inline]
fn sq_plain(a: &[u8], b: &[u8]) -> u32 {
    a.iter()
        .zip(b)
        .map(|(&x, &y)| {
            let d = x as i32 - y as i32;
            (d * d) as u32
        })
        .sum()
}

impl Distance<u8> for Sq {
    #[inline]
    fn eval(&self, a: &[u8], b: &[u8]) -> f32 {
        assert_eq!(a.len(), b.len());
        match self.w {
            None => sq_plain(a, b) as f32,
            Some(w) => {
                assert_eq!(a.len(), w.len());
                a.iter()
                    .zip(b)
                    .zip(w)
                    .map(|((&x, &y), &w)| {
                        let d = x as i32 - y as i32;
                        (d * d) as u32 * w as u32
                    })
                    .sum::<u32>() as f32
            }
        }
    }
}

/// The same distance with a counter, for `bench count=1` only.
#[derive(Clone, Copy, Default)]
pub(crate) struct Counting;
static EVALS: AtomicU64 = AtomicU64::new(0);
impl Distance<u8> for Counting {
    #[inline]
    fn eval(&self, a: &[u8], b: &[u8]) -> f32 {
        EVALS.fetch_add(1, AO::Relaxed);
        sq_plain(a, b) as f32
    }
}

// ---------------------------------------------------------------- making

type Book<D> = MmapDynamicDiskANN<u8, D>;

static SERIAL: AtomicU64 = AtomicU64::new(0);

/// A static index value over an anonymous map holding the given vectors and rows,
/// handed to the Rust's own `create_from_static`.
fn make<D>(
    dim: usize,
    capacity: usize,
    degree: usize,
    alpha: f32,
    entry: u32,
    vectors: &[Vec<u8>],
    rows: &[Vec<u32>],
    dist: D,
) -> Result<Book<D>, DiskAnnError>
where
    D: Distance<u8> + Send + Sync + Copy + Clone + 'static,
{
    let n = vectors.len();
    let mut map = MmapMut::map_anon((n * dim + n * degree * 4).max(1))?;
    for (i, v) in vectors.iter().enumerate() {
        map[i * dim..(i + 1) * dim].copy_from_slice(v);
    }
    for (i, row) in rows.iter().enumerate() {
        for place in 0..degree {
            let target = row.get(place).copied().unwrap_or(PAD_U32);
            let p = n * dim + (i * degree + place) * 4;
            map[p..p + 4].copy_from_slice(&target.to_le_bytes());
        }
    }
    let source = DiskANN {
        dim,
        num_vectors: n,
        max_degree: degree,
        distance_name: std::any::type_name::<D>().to_string(),
        medoid_id: entry,
        vectors_offset: 0,
        adjacency_offset: (n * dim) as u64,
        mmap: Some(map.make_read_only()?),
        dynamic: None,
        dist,
        _phantom: PhantomData,
    };
    let dir = if Path::new("/dev/shm").is_dir() {
        PathBuf::from("/dev/shm")
    } else {
        std::env::temp_dir()
    };
    let path = dir.join(format!(
        "oracle-{}-{}.book",
        std::process::id(),
        SERIAL.fetch_add(1, AO::Relaxed)
    ));
    let made = Book::create_from_static(&source, capacity, alpha, &path);
    let _ = std::fs::remove_file(&path); // the map stays valid
    made
}

// ---------------------------------------------------------------- inserting

/// Every insert goes through here. One that fills a slot of a book without live slots makes the first slot that it fills, which is slot 0, the entry
/// before any walk (E5); one of no vectors, and one that is turned back, leave it. The Rust by itself keeps the dead entry (docs/DIFFERENCES.md, R-15): its
/// source stays as it is, and only the entry is written here, before its own insert.
pub(crate) fn insert_batch<D>(b: &mut Book<D>, vectors: Vec<Vec<u8>>, beam: usize) -> Result<Vec<u32>, DiskAnnError>
where
    D: Distance<u8> + Send + Sync + Copy + Clone + 'static,
{
    let fits = vectors.len() <= b.meta.capacity && vectors.iter().all(|v| v.len() == b.meta.dim);
    if b.live_count == 0 && !vectors.is_empty() && fits {
        b.meta.medoid_id = 0;
    }
    b.insert_batch(vectors, beam)
}

// ---------------------------------------------------------------- printing

fn list(v: &[u32]) -> String {
    if v.is_empty() {
        return ".".into();
    }
    v.iter().map(|x| x.to_string()).collect::<Vec<_>>().join(",")
}

fn hex(v: &[u8]) -> String {
    let mut s = String::with_capacity(1 + 2 * v.len());
    s.push('x');
    for b in v {
        let _ = write!(s, "{b:02x}");
    }
    s
}

/// The document's number for each of the Rust's errors.
fn error(e: &DiskAnnError) -> String {
    let text = e.to_string();
    let number = [
        ("dynamic capacity is smaller", 4),
        ("insert vector dimension mismatch", 9),
        ("capacity exhausted", 10),
        ("routability guard is disabled", 11),
        ("on an empty index", 12),
        ("requires at least one live vector", 13),
    ]
    .iter()
    .find(|(part, _)| text.contains(part))
    .map_or(0, |x| x.1);
    format!("err {number} {text}")
}

fn status_line(s: &RoutabilityGuardStatus) -> String {
    format!(
        "status enabled {} pool {} live {} count {} beam {}",
        s.enabled as u8, s.landmark_pool_size, s.live_landmarks, s.landmark_count, s.beam_width
    )
}

fn report_fields(r: &RoutabilityAdmissionReport) -> String {
    format!(
        "admitted {} requested {} entry {} checked {} baseline {} residual {} lost {} supplemental {}",
        r.admitted as u8,
        r.requested,
        r.entry.map_or("-".to_string(), |e| e.to_string()),
        list(&r.checked_landmarks),
        r.baseline_reachable_landmarks,
        r.residual_reachable_landmarks,
        list(&r.lost_landmarks),
        r.supplemental_landmarks
    )
}

fn stats_fields(stats: &[DeleteStats]) -> String {
    let mut s = format!("stats {}", stats.len());
    for x in stats {
        let _ = write!(
            s,
            " {},{},{},{}",
            x.outgoing_seeds,
            x.recovered_in_neighbors,
            x.repair_candidates,
            x.repair_edges_attempted
        );
    }
    s
}

fn edges<D>(b: &Book<D>, id: u32) -> String
where
    D: Distance<u8> + Send + Sync + Copy + Clone + 'static,
{
    (0..b.meta.max_degree)
        .map(|place| {
            let p = b.adj_pos(id, place);
            let t = u32::from_le_bytes(b.mmap[p..p + 4].try_into().unwrap());
            let q = b.edge_ver_pos(id, place);
            let v = u16::from_le_bytes(b.mmap[q..q + 2].try_into().unwrap());
            match (t, v) {
                (PAD_U32, 0) => "-".to_string(),
                (PAD_U32, v) => format!("-/{v}"),
                (t, v) => format!("{t}/{v}"),
            }
        })
        .collect::<Vec<_>>()
        .join(",")
}

fn mark<D>(b: &Book<D>, id: u32) -> u8
where
    D: Distance<u8> + Send + Sync + Copy + Clone + 'static,
{
    b.mmap[b.meta.valid_offset as usize + id as usize]
}

fn dump<D>(b: &Book<D>) -> String
where
    D: Distance<u8> + Send + Sync + Copy + Clone + 'static,
{
    let m = &b.meta;
    let mut s = format!(
        "dump dim {} capacity {} degree {} alpha {:08x} entry {} live {}\n",
        m.dim,
        m.capacity,
        m.max_degree,
        m.alpha.to_bits(),
        m.medoid_id,
        b.live_count
    );
    match &b.routability_guard {
        None => s.push_str("guard off\n"),
        Some(g) => {
            let _ = writeln!(
                s,
                "guard on count {} multiplier {} sample {} beam {} pool {}",
                g.config.landmark_count,
                g.config.landmark_pool_multiplier,
                g.config.candidate_sample_size,
                g.config.beam_width,
                list(&g.landmark_pool)
            );
        }
    }
    for id in 0..m.capacity as u32 {
        let _ = writeln!(
            s,
            "slot {} mark {} version {} edges {} live {} vec {}",
            id,
            mark(b, id),
            b.node_version(id),
            edges(b, id),
            list(&b.live_neighbors(id)),
            hex(b.vector(id))
        );
    }
    s.push_str("end");
    s
}

fn shelf<D>(b: &Book<D>) -> String
where
    D: Distance<u8> + Send + Sync + Copy + Clone + 'static,
{
    let mut s = format!("entry {} live {}", b.meta.medoid_id, b.live_count);
    for id in 0..b.meta.capacity as u32 {
        let _ = write!(s, "\n{} {} {}", id, mark(b, id), b.node_version(id));
        for t in b.live_neighbors(id) {
            let _ = write!(s, " {t}");
        }
    }
    s
}

fn fnv(text: &str) -> u64 {
    text.bytes().fold(0xcbf29ce484222325u64, |h, b| {
        (h ^ b as u64).wrapping_mul(0x100000001b3)
    })
}

// ---------------------------------------------------------------- reading

struct Words<'a>(std::str::SplitAsciiWhitespace<'a>);

impl<'a> Words<'a> {
    fn word(&mut self) -> Result<&'a str, String> {
        self.0.next().ok_or_else(|| "line too short".to_string())
    }
    fn num<N: std::str::FromStr>(&mut self) -> Result<N, String> {
        let w = self.word()?;
        w.parse().map_err(|_| format!("not a number: {w}"))
    }
    fn rest<N: std::str::FromStr>(&mut self) -> Result<Vec<N>, String> {
        let mut out = Vec::new();
        for w in self.0.by_ref() {
            out.push(w.parse().map_err(|_| format!("not a number: {w}"))?);
        }
        Ok(out)
    }
    fn vector(&mut self) -> Result<Vec<u8>, String> {
        let w = self.word()?;
        let bad = || format!("not a vector: {w}");
        if let Some(h) = w.strip_prefix('x') {
            let h = h.as_bytes();
            if h.len() % 2 != 0 {
                return Err(bad());
            }
            h.chunks(2)
                .map(|c| {
                    u8::from_str_radix(std::str::from_utf8(c).map_err(|_| bad())?, 16)
                        .map_err(|_| bad())
                })
                .collect()
        } else {
            w.split(',').map(|x| x.parse().map_err(|_| bad())).collect()
        }
    }
    fn row(&mut self) -> Result<Vec<u32>, String> {
        let w = self.word()?;
        if w == "." {
            return Ok(Vec::new());
        }
        w.split(',')
            .map(|x| match x {
                "-" => Ok(PAD_U32),
                x => x.parse().map_err(|_| format!("not a row: {w}")),
            })
            .collect()
    }
    fn alpha(&mut self) -> Result<f32, String> {
        let w = self.word()?;
        match w.strip_prefix("0x") {
            Some(h) => u32::from_str_radix(h, 16)
                .map(f32::from_bits)
                .map_err(|_| format!("not an alpha: {w}")),
            None => w.parse().map_err(|_| format!("not an alpha: {w}")),
        }
    }
    fn end(&mut self) -> Result<(), String> {
        match self.0.next() {
            None => Ok(()),
            Some(w) => Err(format!("word too many: {w}")),
        }
    }
}

#[derive(Default)]
struct Driver {
    book: Option<Book<Sq>>,
    weights: Option<&'static [u8]>,
    kept: bool, // an insert into a book without live slots leaves the entry, as the Rust does
    auto: u8, // 0 nothing, 1 digest, 2 dump, 3 shelf; after each call
}

impl Driver {
    fn book(&mut self) -> Result<&mut Book<Sq>, String> {
        self.book.as_mut().ok_or_else(|| "no book".to_string())
    }

    fn slot(&mut self, w: &mut Words) -> Result<u32, String> {
        let id: u32 = w.num()?;
        if id as usize >= self.book()?.meta.capacity {
            return Err(format!("slot outside: {id}"));
        }
        Ok(id)
    }

    fn line(&mut self, text: &str) -> Result<String, String> {
        let mut w = Words(text.split_ascii_whitespace());
        let command = w.word()?;
        let call = matches!(
            command,
            "make" | "search" | "insert" | "delete" | "enable" | "disable" | "status" | "assess" | "gdelete"
        );
        let mut answer = match command {
            "weights" => {
                let v = w.vector()?;
                w.end()?;
                self.weights = Some(v.leak());
                "ok".to_string()
            }
            "noweights" => {
                self.weights = None;
                "ok".to_string()
            }
            "e5" => {
                self.kept = w.word()? == "off";
                "ok".to_string()
            }
            "auto" => {
                self.auto = match w.word()? {
                    "off" => 0,
                    "digest" => 1,
                    "dump" => 2,
                    "shelf" => 3,
                    x => return Err(format!("auto {x}")),
                };
                "ok".to_string()
            }
            "make" => {
                let (dim, cap, deg): (usize, usize, usize) = (w.num()?, w.num()?, w.num()?);
                let alpha = w.alpha()?;
                let entry: u32 = w.num()?;
                let n: usize = w.num()?;
                let mut vectors = Vec::with_capacity(n);
                for _ in 0..n {
                    let v = w.vector()?;
                    if v.len() != dim {
                        return Err("vector not dim long".into());
                    }
                    vectors.push(v);
                }
                let mut rows = Vec::with_capacity(n);
                for _ in 0..n {
                    let r = w.row()?;
                    if r.len() > deg {
                        return Err("row longer than degree".into());
                    }
                    rows.push(r);
                }
                w.end()?;
                if self.weights.is_some_and(|x| x.len() != dim) {
                    return Err("weights not dim long".into());
                }
                let dist = Sq { w: self.weights };
                match make(dim, cap, deg, alpha, entry, &vectors, &rows, dist) {
                    Ok(b) => {
                        self.book = Some(b);
                        format!("made {n}")
                    }
                    Err(e) => error(&e),
                }
            }
            "search" => {
                let (k, beam): (usize, usize) = (w.num()?, w.num()?);
                let q = w.vector()?;
                w.end()?;
                let b = self.book()?;
                if q.len() != b.meta.dim {
                    return Err("query not dim long".into());
                }
                let found = b.search_with_dists(&q, k, beam);
                let mut s = format!("found {}", found.len());
                for (id, d) in found {
                    let _ = write!(s, " {id}:{d}");
                }
                s
            }
            "insert" => {
                let beam: usize = w.num()?;
                let n: usize = w.num()?;
                let vectors = (0..n).map(|_| w.vector()).collect::<Result<Vec<_>, _>>()?;
                w.end()?;
                let kept = self.kept;
                let b = self.book()?;
                match if kept { b.insert_batch(vectors, beam) } else { insert_batch(b, vectors, beam) } {
                    Ok(slots) => {
                        let mut s = format!("slots {}", slots.len());
                        for x in slots {
                            let _ = write!(s, " {x}");
                        }
                        s
                    }
                    Err(e) => error(&e),
                }
            }
            "delete" => {
                let (rb, rd): (usize, usize) = (w.num()?, w.num()?);
                let ids: Vec<u32> = w.rest()?;
                stats_fields(&self.book()?.delete_batch(&ids, rb, rd))
            }
            "enable" => {
                let c = RoutabilityGuardConfig {
                    landmark_count: w.num()?,
                    landmark_pool_multiplier: w.num()?,
                    candidate_sample_size: w.num()?,
                    beam_width: w.num()?,
                };
                w.end()?;
                match self.book()?.enable_routability_guard(c) {
                    Ok(s) => status_line(&s),
                    Err(e) => error(&e),
                }
            }
            "disable" => {
                w.end()?;
                self.book()?.disable_routability_guard();
                "ok".to_string()
            }
            "status" => {
                w.end()?;
                status_line(&self.book()?.routability_guard_status())
            }
            "assess" => {
                let ids: Vec<u32> = w.rest()?;
                match self.book()?.assess_delete_admission(&ids) {
                    Ok(r) => format!("report {}", report_fields(&r)),
                    Err(e) => error(&e),
                }
            }
            "gdelete" => {
                let (rb, rd): (usize, usize) = (w.num()?, w.num()?);
                let ids: Vec<u32> = w.rest()?;
                match self.book()?.delete_batch_with_admission_control(&ids, rb, rd) {
                    Ok(GuardedDeleteResult::Applied { stats, report }) => {
                        format!("applied {} {}", report_fields(&report), stats_fields(&stats))
                    }
                    Ok(GuardedDeleteResult::Deferred(report)) => {
                        format!("deferred {}", report_fields(&report))
                    }
                    Err(e) => error(&e),
                }
            }
            "dump" => {
                w.end()?;
                dump(self.book()?)
            }
            "digest" => {
                w.end()?;
                format!("digest {:016x}", fnv(&dump(self.book()?)))
            }
            "shelf" => {
                w.end()?;
                shelf(self.book()?)
            }
            "row" => {
                let id = self.slot(&mut w)?;
                w.end()?;
                let b = self.book()?;
                format!(
                    "row {id} mark {} version {} edges {} live {}",
                    mark(b, id),
                    b.node_version(id),
                    edges(b, id),
                    list(&b.live_neighbors(id))
                )
            }
            // Hooks: no calls of the Rust; they write stored state as it is.
            "setentry" => {
                let id = self.slot(&mut w)?;
                w.end()?;
                self.book()?.meta.medoid_id = id;
                "ok".to_string()
            }
            "setweights" => {
                let v = w.vector()?;
                w.end()?;
                let b = self.book()?;
                if v.len() != b.meta.dim {
                    return Err("weights not dim long".into());
                }
                b.dist = Sq::weighted(&v);
                "ok".to_string()
            }
            "setversion" => {
                let id = self.slot(&mut w)?;
                let v: u16 = w.num()?;
                w.end()?;
                self.book()?.set_node_version(id, v);
                "ok".to_string()
            }
            "setedge" => {
                let id = self.slot(&mut w)?;
                let place: usize = w.num()?;
                let target = match w.word()? {
                    "-" => PAD_U32,
                    x => x.parse().map_err(|_| format!("not a target: {x}"))?,
                };
                let v: u16 = w.num()?;
                w.end()?;
                let b = self.book()?;
                if place >= b.meta.max_degree {
                    return Err("place outside".into());
                }
                let (p, q) = (b.adj_pos(id, place), b.edge_ver_pos(id, place));
                b.mmap[p..p + 4].copy_from_slice(&target.to_le_bytes());
                b.mmap[q..q + 2].copy_from_slice(&v.to_le_bytes());
                "ok".to_string()
            }
            "setmark" => {
                let id = self.slot(&mut w)?;
                let v: u8 = w.num()?;
                w.end()?;
                let b = self.book()?;
                let old = mark(b, id) != 0;
                let p = b.meta.valid_offset as usize + id as usize;
                b.mmap[p] = v;
                b.live_count = b.live_count + (v != 0) as usize - old as usize;
                "ok".to_string()
            }
            x => return Err(format!("unknown command: {x}")),
        };
        if call && self.auto != 0 && self.book.is_some() {
            let auto = self.auto;
            let b = self.book()?;
            let _ = match auto {
                1 => write!(answer, "\ndigest {:016x}", fnv(&dump(b))),
                2 => write!(answer, "\n{}", dump(b)),
                _ => write!(answer, "\n{}", shelf(b)),
            };
        }
        Ok(answer)
    }
}

fn history() {
    std::panic::set_hook(Box::new(|_| {}));
    let stdin = std::io::stdin().lock();
    let mut out = std::io::BufWriter::new(std::io::stdout().lock());
    let mut driver = Driver::default();
    let mut bad = false;
    for text in stdin.lines() {
        let text = text.expect("stdin");
        let text = text.trim();
        if text.is_empty() || text.starts_with('#') {
            continue;
        }
        match catch_unwind(AssertUnwindSafe(|| driver.line(text))) {
            Ok(Ok(answer)) => writeln!(out, "{answer}").unwrap(),
            Ok(Err(why)) => {
                bad = true;
                writeln!(out, "bad {why}").unwrap();
            }
            Err(p) => {
                bad = true;
                let why = p
                    .downcast_ref::<String>()
                    .cloned()
                    .or_else(|| p.downcast_ref::<&str>().map(|s| s.to_string()))
                    .unwrap_or_default();
                writeln!(out, "panic {}", why.replace('\n', " ")).unwrap();
            }
        }
    }
    out.flush().unwrap();
    drop(out);
    if bad {
        std::process::exit(3);
    }
}

// ---------------------------------------------------------------- E13

/// Every book of E13 in its order, every set of slots (bit s is slot s, rising) deleted.
fn e13() {
    let out = std::io::stdout().lock();
    let mut out = std::io::BufWriter::new(out);
    let values = [0u8, 1, 3];
    for n in 1..=3usize {
        let mut index = 0;
        for v in 0..3usize.pow(n as u32) {
            for r in 0..(n + 1).pow(n as u32) {
                for entry in 0..n as u32 {
                    let digit = |x: usize, base: usize, s: usize| {
                        x / base.pow((n - 1 - s) as u32) % base
                    };
                    let vectors: Vec<Vec<u8>> =
                        (0..n).map(|s| vec![values[digit(v, 3, s)]]).collect();
                    let rows: Vec<Vec<u32>> = (0..n)
                        .map(|s| match digit(r, n + 1, s) {
                            0 => vec![PAD_U32],
                            t => vec![t as u32 - 1],
                        })
                        .collect();
                    for set in 0..1u32 << n {
                        let mut b =
                            make(1, n, 1, 1.0, entry, &vectors, &rows, Sq::default()).unwrap();
                        let ids: Vec<u32> = (0..n as u32).filter(|s| set >> s & 1 == 1).collect();
                        let stats = b.delete_batch(&ids, 2, 1);
                        let row_text: Vec<String> = rows
                            .iter()
                            .map(|r| {
                                if r[0] == PAD_U32 { "-".into() } else { r[0].to_string() }
                            })
                            .collect();
                        let value_text: Vec<String> =
                            vectors.iter().map(|v| v[0].to_string()).collect();
                        write!(
                            out,
                            "n {n} book {index} values {} rows {} entry {entry} delete {} -> {} entry {} live {}",
                            value_text.join(","),
                            row_text.join(","),
                            list(&ids),
                            stats_fields(&stats),
                            b.meta.medoid_id,
                            b.live_count
                        )
                        .unwrap();
                        for id in 0..n as u32 {
                            write!(
                                out,
                                " | {} {} {} {} {}",
                                mark(&b, id),
                                b.node_version(id),
                                edges(&b, id),
                                list(&b.live_neighbors(id)),
                                hex(b.vector(id))
                            )
                            .unwrap();
                        }
                        writeln!(out).unwrap();
                    }
                    index += 1;
                }
            }
        }
    }
    out.flush().unwrap();
}

// ---------------------------------------------------------------- bench and gen

unsafe extern "C" {
    fn clock_gettime(clock: i32, time: *mut [i64; 2]) -> i32;
}

/// CPU time of the whole process (Linux, CLOCK_PROCESS_CPUTIME_ID), for a machine shared with others.
pub fn cpu() -> f64 {
    let mut t = [0i64; 2];
    unsafe { clock_gettime(2, &mut t) };
    t[0] as f64 + t[1] as f64 * 1e-9
}

pub struct Rng(pub u64);
impl Rng {
    fn next(&mut self) -> u64 {
        self.0 = self.0.wrapping_add(0x9e3779b97f4a7c15);
        let mut z = self.0;
        z = (z ^ (z >> 30)).wrapping_mul(0xbf58476d1ce4e5b9);
        z = (z ^ (z >> 27)).wrapping_mul(0x94d049bb133111eb);
        z ^ (z >> 31)
    }
    fn below(&mut self, n: u64) -> u64 {
        self.next() % n
    }
}

fn option(args: &[String], name: &str, default: &str) -> String {
    args.iter()
        .find_map(|a| a.strip_prefix(name).and_then(|x| x.strip_prefix('=')))
        .unwrap_or(default)
        .to_string()
}

pub struct Cloud {
    centres: Vec<Vec<u8>>,
    noise: u64,
}
impl Cloud {
    pub fn new(rng: &mut Rng, clusters: usize, dim: usize, spread: u64, noise: u64) -> Self {
        let centres = (0..clusters)
            .map(|_| {
                (0..dim)
                    .map(|_| (128 - spread as i64 + rng.below(2 * spread + 1) as i64).clamp(0, 255) as u8)
                    .collect()
            })
            .collect();
        Self { centres, noise }
    }
    pub fn draw(&self, rng: &mut Rng) -> Vec<u8> {
        let c = &self.centres[rng.below(self.centres.len() as u64) as usize];
        c.iter()
            .map(|&x| {
                (x as i64 - self.noise as i64 + rng.below(2 * self.noise + 1) as i64).clamp(0, 255)
                    as u8
            })
            .collect()
    }
}

fn bench<D>(args: &[String], dist: D)
where
    D: Distance<u8> + Send + Sync + Copy + Clone + 'static,
{
    let get = |name: &str, default: &str| -> usize {
        option(args, name, default).parse().expect("number")
    };
    let (dim, cap, deg) = (get("dim", "256"), get("cap", "20000"), get("deg", "32"));
    let alpha: f32 = option(args, "alpha", "1.2").parse().unwrap();
    let (batch, ibeam) = (get("batch", "256"), get("ibeam", "64"));
    let (searches, k, sbeam) = (get("searches", "1000"), get("k", "10"), get("sbeam", "64"));
    let (deletes, dbatch) = (get("deletes", "2048"), get("dbatch", "64"));
    let (rbeam, rdeg) = (get("rbeam", "64"), get("rdeg", "4"));
    let (clusters, spread, noise) = (
        get("clusters", "200"),
        get("spread", "40") as u64,
        get("noise", "32") as u64,
    );
    let given = get("given", "1");
    let mut rng = Rng(get("seed", "1") as u64);
    let cloud = Cloud::new(&mut rng, clusters, dim, spread, noise);
    let vectors: Vec<Vec<u8>> = (0..cap).map(|_| cloud.draw(&mut rng)).collect();
    println!(
        "bench dim {dim} capacity {cap} degree {deg} alpha {alpha} clusters {clusters} spread {spread} noise {noise} given {given} threads {}",
        rayon::current_num_threads()
    );
    // the distance alone
    let started = cpu();
    let mut sum = 0f64;
    let rounds = 4_000_000usize;
    for i in 0..rounds {
        let a = &vectors[i % 1024 % cap];
        let b = &vectors[(i * 7 + 1) % 1024 % cap];
        sum += std::hint::black_box(dist.eval(a, b)) as f64;
    }
    println!(
        "distance {:.1} ns each, CPU (mean {:.0})",
        (cpu() - started) * 1e9 / rounds as f64,
        sum / rounds as f64
    );
    // make: `given` vectors; row of slot i is i-1 and i+1 (a chain), entry 0
    let rows: Vec<Vec<u32>> = (0..given as u32)
        .map(|i| {
            let mut r = Vec::new();
            if i > 0 {
                r.push(i - 1);
            }
            if i + 1 < given as u32 {
                r.push(i + 1);
            }
            r.truncate(deg);
            r
        })
        .collect();
    let mut book = make(dim, cap, deg, alpha, 0, &vectors[..given], &rows, dist).unwrap();
    let evals = |from: u64| EVALS.load(AO::Relaxed) - from;
    let mark0 = EVALS.load(AO::Relaxed);
    let started = Instant::now();
    let cpu0 = cpu();
    let mut last = cpu();
    let mut done = 0;
    let mut mark_last = mark0;
    let mut next_note = 4;
    for chunk in vectors[given..].chunks(batch) {
        insert_batch(&mut book, chunk.to_vec(), ibeam).unwrap();
        done += chunk.len();
        let quarter = (cap - given) * (next_note - 3) / 4;
        if done >= quarter && next_note < 8 {
            let part = (cap - given) / 4;
            println!(
                "  insert quarter {}: about {:.1} us CPU each, {:.0} distances each",
                next_note - 3,
                (cpu() - last) * 1e6 / part as f64,
                evals(mark_last) as f64 / part as f64
            );
            last = cpu();
            mark_last = EVALS.load(AO::Relaxed);
            next_note += 1;
        }
    }
    let t = started.elapsed();
    println!(
        "insert {} in batches of {batch}, beam {ibeam}: wall {:.3} s, {:.1} us CPU each, {:.0} distances each",
        done,
        t.as_secs_f64(),
        (cpu() - cpu0) * 1e6 / done.max(1) as f64,
        evals(mark0) as f64 / done.max(1) as f64
    );
    let total: usize = (0..cap as u32).map(|i| book.live_neighbors(i).len()).sum();
    println!("  live {} mean row {:.2}", book.len(), total as f64 / cap as f64);
    println!("  digest {:016x}", fnv(&dump(&book)));
    let queries: Vec<Vec<u8>> = (0..searches).map(|_| cloud.draw(&mut rng)).collect();
    search_phase(&book, &queries, k, sbeam, &evals);
    // deletes: distinct random slots
    let mut order: Vec<u32> = (0..cap as u32).collect();
    for i in (1..order.len()).rev() {
        order.swap(i, rng.below(i as u64 + 1) as usize);
    }
    order.truncate(deletes);
    let mark0 = EVALS.load(AO::Relaxed);
    let started = Instant::now();
    let cpu0 = cpu();
    let mut sums = [0usize; 4];
    for ids in order.chunks(dbatch) {
        for s in book.delete_batch(ids, rbeam, rdeg) {
            sums[0] += s.outgoing_seeds;
            sums[1] += s.recovered_in_neighbors;
            sums[2] += s.repair_candidates;
            sums[3] += s.repair_edges_attempted;
        }
    }
    let t = started.elapsed();
    let d = order.len().max(1) as f64;
    println!(
        "delete {} in batches of {dbatch}, repair beam {rbeam} degree {rdeg}: wall {:.3} s, {:.1} us CPU each, {:.0} distances each; mean stats {:.1} {:.1} {:.1} {:.1}",
        order.len(),
        t.as_secs_f64(),
        (cpu() - cpu0) * 1e6 / d,
        evals(mark0) as f64 / d,
        sums[0] as f64 / d,
        sums[1] as f64 / d,
        sums[2] as f64 / d,
        sums[3] as f64 / d
    );
    println!("  digest {:016x}", fnv(&dump(&book)));
    search_phase(&book, &queries, k, sbeam, &evals);
    // guard
    let started = cpu();
    let status = book.enable_routability_guard(RoutabilityGuardConfig::default());
    println!(
        "enable guard (default 6, 4, 1024, 128): {:.1} ms CPU, {}",
        (cpu() - started) * 1e3,
        status.map_or_else(|e| error(&e), |s| status_line(&s))
    );
    let live: Vec<u32> = (0..cap as u32).filter(|&i| book.is_valid(i)).collect();
    let started = cpu();
    let mut admitted = 0;
    let rounds = 100usize;
    for i in 0..rounds {
        let ids: Vec<u32> = (0..dbatch).map(|j| live[(i * dbatch + j) * 7919 % live.len()]).collect();
        admitted += book.assess_delete_admission(&ids).unwrap().admitted as usize;
    }
    println!(
        "assess {dbatch} ids: {:.1} us CPU each, {admitted} of {rounds} admitted",
        (cpu() - started) * 1e6 / rounds as f64
    );
}

fn search_phase<D>(book: &Book<D>, queries: &[Vec<u8>], k: usize, beam: usize, evals: &dyn Fn(u64) -> u64)
where
    D: Distance<u8> + Send + Sync + Copy + Clone + 'static,
{
    let mark0 = EVALS.load(AO::Relaxed);
    let started = Instant::now();
    let cpu0 = cpu();
    let answers: Vec<Vec<(u32, f32)>> =
        queries.iter().map(|q| book.search_with_dists(q, k, beam)).collect();
    let t = started.elapsed();
    let spent = cpu() - cpu0;
    let n = queries.len().max(1) as f64;
    let per = evals(mark0) as f64 / n;
    let mut hit = 0usize;
    let mut of = 0usize;
    for (q, a) in queries.iter().zip(&answers).take(200) {
        let mut all: Vec<u32> = (0..book.capacity() as u32)
            .filter(|&i| book.is_valid(i))
            .map(|i| sq_plain(q, book.vector(i)))
            .collect();
        all.sort_unstable();
        let Some(&limit) = all.get(k.min(all.len()).wrapping_sub(1)) else {
            continue;
        };
        of += k.min(all.len());
        hit += a.iter().filter(|x| x.1 <= limit as f32).count();
    }
    println!(
        "search {} k {k} beam {beam}: wall {:.3} s, {:.1} us CPU each, {:.0} distances each, recall {:.3}",
        queries.len(),
        t.as_secs_f64(),
        spent * 1e6 / n,
        per,
        hit as f64 / of.max(1) as f64
    );
}

/// A random history in the line format. ties=0 draws wide values so that ties are unlikely.
fn r#gen(args: &[String]) {
    let get = |name: &str, default: &str| -> u64 {
        option(args, name, default).parse().expect("number")
    };
    let mut rng = Rng(get("seed", "1"));
    let (dim, cap, deg) = (get("dim", "3"), get("cap", "24"), get("deg", "3"));
    let alpha = option(args, "alpha", "1.2");
    let calls = get("calls", "60");
    let values = get("values", "256");
    let given = get("given", "8").min(cap);
    let vector = |rng: &mut Rng| {
        hex(&(0..dim).map(|_| rng.below(values) as u8).collect::<Vec<_>>())
    };
    print!("make {dim} {cap} {deg} {alpha} {} {given}", if given == 0 { 0 } else { rng.below(given) });
    for _ in 0..given {
        print!(" {}", vector(&mut rng));
    }
    for _ in 0..given {
        let row: Vec<String> = (0..deg)
            .map(|_| match rng.below(given + 1) {
                0 => "-".into(),
                t => (t - 1).to_string(),
            })
            .collect();
        print!(" {}", row.join(","));
    }
    println!("\nauto {}", option(args, "auto", "digest"));
    let ids = |rng: &mut Rng| {
        let n = rng.below(5);
        (0..n).map(|_| format!(" {}", rng.below(cap + 1))).collect::<String>()
    };
    for _ in 0..calls {
        match rng.below(12) {
            0..=2 => {
                let n = rng.below(cap / 3 + 1);
                print!("insert {} {n}", rng.below(10));
                for _ in 0..n {
                    print!(" {}", vector(&mut rng));
                }
                println!();
            }
            3..=4 => println!("delete {} {}{}", rng.below(10), rng.below(5), ids(&mut rng)),
            5..=7 => println!("search {} {} {}", rng.below(8), rng.below(10), vector(&mut rng)),
            8 => println!(
                "enable {} {} {} {}",
                rng.below(4), rng.below(4), rng.below(2 * cap), rng.below(10)
            ),
            9 => println!("assess{}", ids(&mut rng)),
            10 => println!("gdelete {} {}{}", rng.below(10), rng.below(5), ids(&mut rng)),
            _ => println!("{}", if rng.below(6) == 0 { "disable" } else { "status" }),
        }
    }
    println!("dump");
}

pub(crate) fn main(args: Vec<String>) {
    match args.first().map(|x| x.as_str()) {
        None => history(),
        Some("bench") if option(&args, "count", "0") == "1" => bench(&args[1..], Counting),
        Some("bench") => bench(&args[1..], Sq::default()),
        Some("e13") => e13(),
        Some("gen") => r#gen(&args[1..]),
        Some(x) => {
            eprintln!("unknown: {x}; bench, e13, gen or a history on stdin");
            std::process::exit(2);
        }
    }
}
