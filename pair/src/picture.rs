//! Reading one picture.

use crate::reduce::{flat, reduce, Grey, Grid};
use image::codecs::jpeg::JpegEncoder;
use image::io::{Limits, Reader};
use image::{ColorType, DynamicImage, ImageFormat};
use std::borrow::Cow;
use std::fs::File;
use std::io::BufReader;
use std::panic::{catch_unwind, AssertUnwindSafe};
use std::path::Path;
use std::time::{Duration, Instant};

/// The most bytes that the pixels of a picture take, and the most pixels of a side.
const MOST_BYTES: u64 = 1 << 30;
const MOST_PIXELS: u32 = 1 << 20;

/// The longer side of a picture in the report.
const THUMB: u32 = 120;

/// What is kept of a picture.
pub struct Picture {
    pub grey: Grey,
    /// A small JPEG for the report, where there will be one.
    pub thumb: Vec<u8>,
}

/// Reads and decodes a file: PNG, JPEG or PNM by what it begins with, whatever its name says.
fn decode(path: &Path) -> Result<DynamicImage, String> {
    let file = File::open(path).map_err(|error| error.to_string())?;
    let mut reader = Reader::new(BufReader::new(file)).with_guessed_format().map_err(|error| error.to_string())?;
    match reader.format() {
        Some(ImageFormat::Png | ImageFormat::Jpeg | ImageFormat::Pnm) => {}
        _ => return Err("neither PNG nor JPEG nor PNM".into()),
    }
    let mut limits = Limits::default();
    limits.max_alloc = Some(MOST_BYTES);
    limits.max_image_width = Some(MOST_PIXELS);
    limits.max_image_height = Some(MOST_PIXELS);
    reader.limits(limits);
    // A decoder may panic on a file that is broken; that is one more way of not reading it.
    match catch_unwind(AssertUnwindSafe(|| reader.decode())) {
        Ok(decoded) => decoded.map_err(|error| error.to_string()),
        Err(_) => Err("the decoder gave up".into()),
    }
}

/// Panics of decoders are caught and told as the file's fault, so they need not be printed besides.
pub fn quiet_decoders() {
    let usual = std::panic::take_hook();
    std::panic::set_hook(Box::new(move |info| {
        let place = info.location().map_or("", |location| location.file());
        if !["image-", "jpeg-decoder-", "png-", "miniz_oxide-", "flate2-"].iter().any(|name| place.contains(name)) {
            usual(info);
        }
    }));
}

/// A picture that fits the report, as a JPEG: each pixel is the mean of 16, evenly spread over its part.
fn thumb(picture: &DynamicImage) -> Result<Vec<u8>, String> {
    let rgb = match picture {
        DynamicImage::ImageRgb8(rgb) => Cow::Borrowed(rgb),
        other => Cow::Owned(flat(other)),
    };
    let (width, height) = rgb.dimensions();
    let long = width.max(height);
    let side = |n: u32| if long > THUMB { (u64::from(n) * u64::from(THUMB) / u64::from(long)).max(1) as u32 } else { n };
    let (small_width, small_height) = (side(width), side(height));
    // Four places for each pixel of the small one.
    let places = |n: u32, small: u32| -> Vec<usize> {
        let (n, small) = (u64::from(n), u64::from(small));
        (0..4 * small).map(|i| ((2 * i + 1) * n / (8 * small)) as usize).collect()
    };
    let (xs, ys) = (places(width, small_width), places(height, small_height));
    let pixels = rgb.as_raw();
    let mut small = Vec::with_capacity(3 * small_width as usize * small_height as usize);
    for ys in ys.chunks_exact(4) {
        for xs in xs.chunks_exact(4) {
            let mut sums = [8u32; 3];
            for y in ys {
                for x in xs {
                    let start = 3 * (y * width as usize + x);
                    for (sum, &value) in sums.iter_mut().zip(&pixels[start..start + 3]) {
                        *sum += u32::from(value);
                    }
                }
            }
            small.extend(sums.map(|sum| (sum / 16) as u8));
        }
    }
    let mut bytes = vec![];
    JpegEncoder::new_with_quality(&mut bytes, 70).encode(&small, small_width, small_height, ColorType::Rgb8).map_err(|error| error.to_string())?;
    Ok(bytes)
}

/// Reads a picture, and adds the time that reading and decoding the file took to `reading`.
pub fn read(path: &Path, grid: Grid, with_thumb: bool, reading: &mut Duration) -> Result<Picture, String> {
    let start = Instant::now();
    let decoded = decode(path);
    *reading += start.elapsed();
    let decoded = decoded?;
    let grey = reduce(&decoded, grid).ok_or("a picture without pixels")?;
    let thumb = if with_thumb { thumb(&decoded)? } else { vec![] };
    Ok(Picture { grey, thumb })
}
