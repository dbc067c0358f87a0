//! sample FOLDER COUNT SEED: draws a sample set for `pair`.
//!
//! FOLDER/originals gets COUNT drawn pictures (PNG, JPEG, PNM), FOLDER/placeholders COUNT small ones: one in twenty of a picture that is not among the
//! originals, the others each of another original, most of them cropped by 1 to 3 per cent, some brighter, most recompressed as a poor JPEG. Names tell
//! nothing. FOLDER/truth.tsv has for each placeholder its original, or -, and how it was made. One original in fifty is another one with one more mark on it.
//! The same seed gives the same bytes.

use image::codecs::jpeg::JpegEncoder;
use image::codecs::pnm::{PnmEncoder, PnmSubtype, SampleEncoding};
use image::imageops::{self, FilterType};
use image::{ColorType, GrayImage, ImageEncoder, ImageFormat, Rgb, RgbImage};
use std::collections::HashSet;
use std::error::Error;
use std::fs::File;
use std::io::{BufWriter, Write};
use std::path::{Path, PathBuf};

/// Numbers that look random (splitmix64), from a seed and the number of a thing that is drawn.
struct Random(u64);

impl Random {
    fn new(seed: u64, thing: u64) -> Random {
        let mut random = Random(seed.wrapping_mul(0x9e37_79b9_7f4a_7c15) ^ thing.wrapping_mul(0xd134_2543_de82_ef95));
        random.next();
        random
    }

    fn next(&mut self) -> u64 {
        self.0 = self.0.wrapping_add(0x9e37_79b9_7f4a_7c15);
        let mut z = self.0;
        z = (z ^ (z >> 30)).wrapping_mul(0xbf58_476d_1ce4_e5b9);
        z = (z ^ (z >> 27)).wrapping_mul(0x94d0_49bb_1331_11eb);
        z ^ (z >> 31)
    }

    /// From 0 to 1.
    fn part(&mut self) -> f32 {
        (self.next() >> 40) as f32 / (1u64 << 24) as f32
    }

    fn between(&mut self, low: f32, high: f32) -> f32 {
        low + (high - low) * self.part()
    }

    fn count(&mut self, low: u32, high: u32) -> u32 {
        low + (self.next() % u64::from(high - low + 1)) as u32
    }

    fn one_in(&mut self, n: u32) -> bool {
        self.count(1, n) == 1
    }

    fn colour(&mut self) -> [f32; 3] {
        [self.between(0.0, 255.0), self.between(0.0, 255.0), self.between(0.0, 255.0)]
    }

    fn pale(&mut self) -> [f32; 3] {
        self.colour().map(|value| 150.0 + value * 0.4)
    }

    fn dark(&mut self) -> [f32; 3] {
        self.colour().map(|value| value * 0.35)
    }
}

/// A sheet that is drawn on; places are parts of its sides, so 0.5, 0.5 is its middle.
struct Sheet(RgbImage);

impl Sheet {
    fn size(&self) -> (f32, f32) {
        (self.0.width() as f32, self.0.height() as f32)
    }

    /// Mixes a colour in, wherever `cover` is above 0 within a box.
    fn mix(&mut self, left: f32, top: f32, right: f32, bottom: f32, colour: [f32; 3], cover: impl Fn(f32, f32) -> f32) {
        let (width, height) = self.size();
        let inside = |value: f32, side: f32| (value * side).clamp(0.0, side) as u32;
        for y in inside(top, height)..inside(bottom, height) {
            for x in inside(left, width)..inside(right, width) {
                let part = cover((x as f32 + 0.5) / width, (y as f32 + 0.5) / height).clamp(0.0, 1.0);
                if part > 0.0 {
                    let pixel = &mut self.0.get_pixel_mut(x, y).0;
                    for (value, colour) in pixel.iter_mut().zip(colour) {
                        *value = (f32::from(*value) + (colour - f32::from(*value)) * part) as u8;
                    }
                }
            }
        }
    }

    fn rectangle(&mut self, left: f32, top: f32, right: f32, bottom: f32, colour: [f32; 3]) {
        self.mix(left, top, right, bottom, colour, |_, _| 1.0);
    }

    /// An ellipse whose edge is as soft as `soft` says, from 0 to 1.
    fn ellipse(&mut self, x: f32, y: f32, rx: f32, ry: f32, soft: f32, colour: [f32; 3]) {
        self.mix(x - rx, y - ry, x + rx, y + ry, colour, |px, py| {
            let away = ((px - x) / rx).powi(2) + ((py - y) / ry).powi(2);
            (1.0 - away) / soft.max(0.02)
        });
    }

    fn triangle(&mut self, corners: [(f32, f32); 3], colour: [f32; 3]) {
        let [a, b, c] = corners;
        let side = |p: (f32, f32), q: (f32, f32), x: f32, y: f32| (q.0 - p.0) * (y - p.1) - (q.1 - p.1) * (x - p.0);
        let least = |f: fn(&(f32, f32)) -> f32| corners.iter().map(f).fold(1.0, f32::min);
        let most = |f: fn(&(f32, f32)) -> f32| corners.iter().map(f).fold(0.0, f32::max);
        self.mix(least(|p| p.0), least(|p| p.1), most(|p| p.0), most(|p| p.1), colour, |x, y| {
            let sides = [side(a, b, x, y), side(b, c, x, y), side(c, a, x, y)];
            f32::from(u8::from(sides.iter().all(|&s| s >= 0.0) || sides.iter().all(|&s| s <= 0.0)))
        });
    }

    /// A straight line, `wide` as a part of the width.
    fn line(&mut self, from: (f32, f32), to: (f32, f32), wide: f32, colour: [f32; 3]) {
        let (width, height) = self.size();
        let ratio = height / width;
        let (dx, dy) = (to.0 - from.0, (to.1 - from.1) * ratio);
        let length = (dx * dx + dy * dy).max(1e-9);
        let (left, right) = (from.0.min(to.0) - wide, from.0.max(to.0) + wide);
        let (top, bottom) = (from.1.min(to.1) - wide / ratio, from.1.max(to.1) + wide / ratio);
        self.mix(left, top, right, bottom, colour, |x, y| {
            let (px, py) = (x - from.0, (y - from.1) * ratio);
            let along = ((px * dx + py * dy) / length).clamp(0.0, 1.0);
            let away = ((px - along * dx).powi(2) + (py - along * dy).powi(2)).sqrt();
            (wide * 0.5 - away) * width + 0.5
        });
    }

    /// Marks that look like a line of text.
    fn text(&mut self, random: &mut Random, left: f32, right: f32, y: f32, size: f32, colour: [f32; 3]) {
        let letter = size * 0.5;
        let mut x = left;
        while x + letter < right {
            for _ in 0..random.count(2, 9) {
                if x + letter < right {
                    let tall = size * random.between(0.6, 1.0);
                    self.rectangle(x, y + size - tall, x + letter * 0.7, y + size, colour);
                    x += letter;
                }
            }
            x += letter;
        }
    }
}

fn place(random: &mut Random) -> (f32, f32) {
    (random.part(), random.part())
}

/// A slope of two colours, soft blobs, and grain.
fn photograph(random: &mut Random, sheet: &mut Sheet) {
    let (from, to) = (random.colour(), random.colour());
    let angle = random.between(0.0, std::f32::consts::TAU);
    sheet.rectangle(0.0, 0.0, 1.0, 1.0, from);
    sheet.mix(0.0, 0.0, 1.0, 1.0, to, |x, y| 0.5 + (x - 0.5) * angle.cos() + (y - 0.5) * angle.sin());
    for _ in 0..random.count(5, 16) {
        let ((x, y), colour) = (place(random), random.colour());
        let (rx, ry) = (random.between(0.04, 0.35), random.between(0.04, 0.35));
        sheet.ellipse(x, y, rx, ry, random.between(0.1, 1.0), colour);
    }
    let grain = random.between(0.0, 14.0);
    for pixel in sheet.0.pixels_mut() {
        let noise = random.between(-grain, grain);
        pixel.0 = pixel.0.map(|value| (f32::from(value) + noise).clamp(0.0, 255.0) as u8);
    }
}

/// Plain shapes in colours.
fn shapes(random: &mut Random, sheet: &mut Sheet) {
    sheet.rectangle(0.0, 0.0, 1.0, 1.0, random.colour());
    for _ in 0..random.count(4, 20) {
        let ((x, y), colour) = (place(random), random.colour());
        let (w, h) = (random.between(0.05, 0.4), random.between(0.05, 0.4));
        match random.count(0, 2) {
            0 => sheet.rectangle(x - w / 2.0, y - h / 2.0, x + w / 2.0, y + h / 2.0, colour),
            1 => sheet.ellipse(x, y, w / 2.0, h / 2.0, 0.02, colour),
            _ => sheet.triangle([(x, y), (x + w, y + random.between(-h, h)), (x + random.between(-w, w), y + h)], colour),
        }
    }
}

/// Black lines on white, hatched in places, with labels.
fn drawing(random: &mut Random, sheet: &mut Sheet) {
    let ink = random.dark();
    for _ in 0..random.count(2, 7) {
        let (mut from, wide) = (place(random), random.between(0.003, 0.015));
        for _ in 0..random.count(2, 7) {
            let to = place(random);
            sheet.line(from, to, wide, ink);
            from = to;
        }
    }
    for _ in 0..random.count(1, 4) {
        let ((x, y), (w, h)) = (place(random), (random.between(0.1, 0.35), random.between(0.1, 0.35)));
        let step = random.between(0.012, 0.03);
        let lines = (w / step) as u32;
        for i in 0..lines {
            let left = x + i as f32 * step;
            sheet.line((left, y), (left + w * 0.3, y + h), 0.004, ink);
        }
    }
    for _ in 0..random.count(1, 5) {
        let (x, y) = place(random);
        sheet.text(random, x, x + 0.2, y, 0.03, ink);
    }
}

/// Bars, or a curve, between two axes.
fn chart(random: &mut Random, sheet: &mut Sheet) {
    let ink = random.dark();
    let bars = random.count(3, 14);
    let wide = 0.84 / bars as f32;
    if random.one_in(3) {
        let mut from = (0.1, random.between(0.15, 0.85));
        for i in 0..bars {
            let to = (0.1 + (i + 1) as f32 * wide, random.between(0.15, 0.85));
            sheet.line(from, to, 0.02, ink);
            from = to;
        }
    } else {
        let colour = random.colour();
        for i in 0..bars {
            let colour = if random.one_in(4) { random.colour() } else { colour };
            let left = 0.1 + i as f32 * wide;
            sheet.rectangle(left, random.between(0.1, 0.85), left + wide * 0.7, 0.88, colour);
        }
    }
    sheet.line((0.09, 0.06), (0.09, 0.88), 0.006, ink);
    sheet.line((0.09, 0.88), (0.96, 0.88), 0.006, ink);
    sheet.text(random, 0.2, 0.8, 0.93, 0.03, ink);
    sheet.text(random, 0.3, 0.7, 0.02, 0.04, ink);
}

/// Columns of text around a picture.
fn page(random: &mut Random, sheet: &mut Sheet) {
    let ink = random.dark();
    let (left, right) = (random.between(0.05, 0.4), random.between(0.6, 0.95));
    let (top, bottom) = (random.between(0.15, 0.45), random.between(0.55, 0.95));
    let size = random.between(0.015, 0.03);
    let mut y = 0.15;
    while y < 0.95 {
        if y + size < top || y > bottom {
            let end = if random.one_in(6) { random.between(0.3, 0.9) } else { 0.95 };
            sheet.text(random, 0.05, end, y, size, ink);
        }
        y += size * 2.0;
    }
    let end = random.between(0.4, 0.95);
    sheet.text(random, 0.05, end, 0.04, 0.07, ink);
    sheet.rectangle(left, top, right, bottom, random.colour());
    for _ in 0..random.count(2, 6) {
        let (x, y) = (random.between(left, right), random.between(top, bottom));
        let (rx, ry) = ((right - left) * random.between(0.1, 0.4), (bottom - top) * random.between(0.1, 0.4));
        let colour = random.colour();
        sheet.ellipse(x, y, rx.min(x - left).min(right - x).max(0.01), ry.min(y - top).min(bottom - y).max(0.01), 0.3, colour);
    }
}

/// Countries, borders, rivers and names.
fn map(random: &mut Random, sheet: &mut Sheet) {
    let sites: Vec<((f32, f32), [f32; 3])> = (0..random.count(6, 18)).map(|_| (place(random), if random.one_in(3) { random.colour() } else { random.pale() })).collect();
    let (width, height) = sheet.size();
    for (x, y, pixel) in sheet.0.enumerate_pixels_mut() {
        let (px, py) = (x as f32 / width, y as f32 / height);
        let away = |site: &((f32, f32), [f32; 3])| (site.0 .0 - px).powi(2) + (site.0 .1 - py).powi(2);
        let (mut nearest, mut next) = ((f32::MAX, [0.0; 3]), f32::MAX);
        for site in &sites {
            let distance = away(site);
            if distance < nearest.0 {
                next = nearest.0;
                nearest = (distance, site.1);
            } else {
                next = next.min(distance);
            }
        }
        let border = next.sqrt() - nearest.0.sqrt() < 0.008;
        pixel.0 = nearest.1.map(|value| if border { 40 } else { value as u8 });
    }
    let river = [30.0, 60.0, 170.0];
    for _ in 0..random.count(1, 3) {
        let mut from = place(random);
        for _ in 0..random.count(3, 8) {
            let to = (from.0 + random.between(-0.2, 0.2), from.1 + random.between(-0.2, 0.2));
            sheet.line(from, to, 0.012, river);
            from = to;
        }
    }
    for _ in 0..random.count(3, 9) {
        let (x, y) = place(random);
        sheet.text(random, x, x + 0.15, y, 0.025, [20.0; 3]);
    }
}

/// Draws a picture by its number; says of which kind it is.
fn draw(seed: u64, number: u64) -> (RgbImage, &'static str) {
    let mut random = Random::new(seed, number);
    let long = random.between(560.0, 1000.0);
    let short = long * random.between(0.6, 1.0);
    let (width, height) = if random.one_in(3) { (short, long) } else { (long, short) };
    let mut sheet = Sheet(RgbImage::from_pixel(width as u32, height as u32, Rgb([random.count(235, 255) as u8; 3])));
    let kind = match random.count(1, 20) {
        1..=6 => (photograph as fn(&mut Random, &mut Sheet), "photograph"),
        7..=10 => (shapes as _, "shapes"),
        11..=13 => (drawing as _, "drawing"),
        14..=16 => (chart as _, "chart"),
        17..=18 => (page as _, "page"),
        _ => (map as _, "map"),
    };
    kind.0(&mut random, &mut sheet);
    (sheet.0, kind.1)
}

/// A picture of the set: of the first `count` one in fifty is the one before it with one more mark.
fn picture(seed: u64, number: u64, count: u64) -> (RgbImage, String) {
    let mut random = Random::new(seed ^ 0x5eed, number);
    if number % 50 == 49 && number < count {
        let (picture, kind) = draw(seed, number - 1);
        let mut sheet = Sheet(picture);
        let ((x, y), colour) = (place(&mut random), random.colour());
        sheet.ellipse(x, y, random.between(0.04, 0.08), random.between(0.04, 0.08), 0.02, colour);
        return (sheet.0, format!("{kind}-again"));
    }
    let (picture, kind) = draw(seed, number);
    (picture, if number % 50 == 48 && number + 1 < count { format!("{kind}-first") } else { kind.into() })
}

/// A small picture of a large one, and how it was made.
fn shrink(random: &mut Random, picture: &RgbImage) -> (RgbImage, String) {
    let (width, height) = picture.dimensions();
    let crop = if random.one_in(4) { 0.0 } else { random.between(0.01, 0.03) };
    let mut cut = |side: u32| {
        let away = (side as f32 * crop).round();
        ((away * random.part()).round() as u32, side - away as u32)
    };
    let ((left, w), (top, h)) = (cut(width), cut(height));
    let part = imageops::crop_imm(picture, left, top, w, h).to_image();
    let long = random.between(64.0, 160.0);
    let scale = long / w.max(h) as f32;
    let side = |n: u32| ((n as f32 * scale).round() as u32).max(1);
    let mut small = imageops::resize(&part, side(w), side(h), FilterType::Triangle);
    let brighter = if random.one_in(3) { random.count(2, 12) as i32 } else { 0 };
    if brighter > 0 {
        small = imageops::brighten(&small, brighter);
    }
    (small, format!("crop {:.1}% brighter {brighter}", crop * 100.0))
}

/// Writes a picture in the way that its name says: .jpg with a quality, .png, .ppm or, grey, .pgm.
fn save(path: &Path, picture: &RgbImage, quality: u8) -> Result<(), Box<dyn Error>> {
    let mut out = BufWriter::new(File::create(path)?);
    match path.extension().and_then(|name| name.to_str()) {
        Some("jpg") => JpegEncoder::new_with_quality(&mut out, quality).encode_image(picture)?,
        Some("png") => image::DynamicImage::ImageRgb8(picture.clone()).write_to(&mut out, ImageFormat::Png)?,
        Some("ppm") => {
            let encoder = PnmEncoder::new(&mut out).with_subtype(PnmSubtype::Pixmap(SampleEncoding::Binary));
            encoder.write_image(picture.as_raw(), picture.width(), picture.height(), ColorType::Rgb8)?;
        }
        _ => {
            let grey: GrayImage = imageops::grayscale(picture);
            let encoder = PnmEncoder::new(&mut out).with_subtype(PnmSubtype::Graymap(SampleEncoding::Binary));
            encoder.write_image(grey.as_raw(), grey.width(), grey.height(), ColorType::L8)?;
        }
    }
    out.flush()?;
    Ok(())
}

/// A name that was not used before.
fn name(random: &mut Random, used: &mut HashSet<u64>) -> String {
    loop {
        let number = random.next() >> 32;
        if used.insert(number) {
            return format!("{number:08x}");
        }
    }
}

fn make(folder: &Path, count: u64, seed: u64) -> Result<(), Box<dyn Error>> {
    let (originals, placeholders) = (folder.join("originals"), folder.join("placeholders"));
    std::fs::create_dir_all(&originals)?;
    std::fs::create_dir_all(&placeholders)?;
    let mut names = (Random::new(seed, 1 << 40), HashSet::new());
    let mut truth: Vec<String> = vec![];
    // The last placeholders, one in twenty, have no original; the last originals have no placeholder.
    let paired = count - count / 20;
    for number in 0..count + count / 20 {
        let (picture, kind) = picture(seed, number, count);
        let mut random = Random::new(seed ^ 0xf0_1d, number);
        let mut made_of = String::from("-");
        if number < count {
            // A photograph as JPEG or PNM, anything else mostly as PNG.
            let ending = match random.count(1, 20) {
                1 => "ppm",
                2..=5 => "jpg",
                _ if kind.starts_with("photograph") => "jpg",
                _ => "png",
            };
            made_of = format!("{}.{ending}", name(&mut names.0, &mut names.1));
            save(&originals.join(&made_of), &picture, random.count(75, 95) as u8)?;
        }
        if number < paired || number >= count {
            let (small, how) = shrink(&mut random, &picture);
            let (ending, quality) = match random.count(1, 10) {
                1 => ("png", 0),
                2 => ("pgm", 0),
                _ => ("jpg", random.count(20, 60) as u8),
            };
            let file = format!("{}.{ending}", name(&mut names.0, &mut names.1));
            save(&placeholders.join(&file), &small, quality)?;
            truth.push(format!("{file}\t{made_of}\t{kind} {how} quality {quality}\n"));
        }
    }
    truth.sort();
    std::fs::write(folder.join("truth.tsv"), truth.concat())?;
    Ok(())
}

fn main() -> Result<(), Box<dyn Error>> {
    let arguments: Vec<_> = std::env::args_os().skip(1).collect();
    let number = |i: usize| arguments.get(i)?.to_str()?.parse::<u64>().ok();
    match (arguments.first(), number(1), number(2), arguments.len()) {
        (Some(folder), Some(count), Some(seed), 3) => make(&PathBuf::from(folder), count, seed),
        _ => Err("sample FOLDER COUNT SEED".into()),
    }
}
