//! A picture as grey values, and what each of them counts.

use image::{DynamicImage, Rgb, RgbImage};

/// How a picture is cut: as many cells a side, of which those of the last columns may count more, since lines end there.
#[derive(Clone, Copy, Debug, PartialEq, Eq)]
pub struct Grid {
    side: usize,
    /// How many columns weigh more than 1, and how much.
    ends: usize,
    weight: u8,
}

/// All cells count alike.
pub const PLAIN: Grid = Grid { side: 16, ends: 0, weight: 1 };

/// The weights of an index make at most 256, which is what 16 x 16 ones make; these make 252.
pub const LINE_ENDS: Grid = Grid { side: 14, ends: 2, weight: 3 };

/// The grey values of a picture, row by row.
pub type Grey = Vec<u8>;

impl Grid {
    /// How many grey values there are.
    pub fn dim(self) -> usize {
        self.side * self.side
    }

    fn weight_of(self, cell: usize) -> u8 {
        if cell % self.side + self.ends < self.side {
            1
        } else {
            self.weight
        }
    }

    /// What each of them counts.
    pub fn weights(self) -> Vec<u8> {
        (0..self.dim()).map(|cell| self.weight_of(cell)).collect()
    }

    /// The sum of squared differences, each times its weight.
    pub fn distance(self, a: &[u8], b: &[u8]) -> u32 {
        a.iter().zip(b).enumerate().map(|(cell, (&a, &b))| u32::from(self.weight_of(cell)) * u32::from(a.abs_diff(b)).pow(2)).sum()
    }

    /// The distance of a picture to the sheet that is all of its mean grey, in which each value counts by its weight, times the sum of the weights: how much
    /// there is to be seen in it.
    pub fn contrast(self, grey: &[u8]) -> u64 {
        let sum = |power: u32| -> u64 { grey.iter().enumerate().map(|(cell, &value)| u64::from(self.weight_of(cell)) * u64::from(value).pow(power)).sum() };
        sum(0) * sum(2) - sum(1) * sum(1)
    }

    /// What `contrast` has a distance multiplied by.
    pub fn sum_of_weights(self) -> u64 {
        self.weights().iter().map(|&weight| u64::from(weight)).sum()
    }
}

/// The pixels of one cell along one side of a picture, each in as many parts as there are cells: the first and the last may count in part.
struct Span {
    first: usize,
    last: usize,
    first_weight: u64,
    whole: u64,
    last_weight: u64,
}

/// A side of `n` pixels has `side` n parts, of which cell i has those from i n to (i + 1) n.
fn spans(n: usize, side: usize) -> Vec<Span> {
    let span = |i: usize| {
        let (start, end) = (i * n, (i + 1) * n);
        let (first, last) = (start / side, (end - 1) / side);
        let first_end = end.min(side * (first + 1));
        let last_start = start.max(side * last);
        Span { first, last, first_weight: (first_end - start) as u64, whole: side as u64, last_weight: (end - last_start) as u64 }
    };
    (0..side).map(span).collect()
}

impl Span {
    /// The pixels that lie within.
    fn within(&self) -> std::ops::Range<usize> {
        self.first + 1..self.last.max(self.first + 1)
    }

    /// The sum over a cell, of those over its first pixel, those within and its last, which may be the first.
    fn total(&self, first: u64, within: u64, last: u64) -> u64 {
        let rest = if self.last > self.first { within * self.whole + last * self.last_weight } else { 0 };
        first * self.first_weight + rest
    }
}

/// What one cell has of a line of pixels, each of as many values as there are weights.
fn across<T: Copy + Into<u64>, const N: usize>(line: &[T], span: &Span, weights: [u64; N]) -> u64 {
    let sum = |xs: std::ops::Range<usize>| {
        let mut sums = [0; N];
        for pixel in line[N * xs.start..N * xs.end].chunks_exact(N) {
            for (sum, &value) in sums.iter_mut().zip(pixel) {
                *sum += value.into();
            }
        }
        sums.iter().zip(weights).map(|(sum, weight)| sum * weight).sum()
    };
    span.total(sum(span.first..span.first + 1), sum(span.within()), sum(span.last..span.last + 1))
}

/// The mean of each cell. The weights of a pixel's values make 1000.
fn means<const N: usize>(bytes: &[u8], width: usize, height: usize, weights: [u64; N], side: usize) -> Grey {
    let line = |y: usize| &bytes[N * width * y..][..N * width];
    let columns = spans(width, side);
    let parts = 1000 * width as u64 * height as u64;
    // The lines within a cell are added up before anything else, since that is what takes time; a side has at most 2^20 pixels, so 32 bits are enough.
    let mut within = vec![0u32; N * width];
    let mut cells = vec![0; side * side];
    for (row, span) in cells.chunks_exact_mut(side).zip(spans(height, side)) {
        within.fill(0);
        for y in span.within() {
            for (sum, &value) in within.iter_mut().zip(line(y)) {
                *sum += u32::from(value);
            }
        }
        for (cell, column) in row.iter_mut().zip(&columns) {
            let of = |y: usize| across(line(y), column, weights);
            let total = span.total(of(span.first), across(&within, column, weights), of(span.last));
            *cell = ((total + parts / 2) / parts) as u8;
        }
    }
    cells
}

/// On white, in three colours.
pub fn flat(picture: &DynamicImage) -> RgbImage {
    let rgba = picture.to_rgba8();
    RgbImage::from_fn(rgba.width(), rgba.height(), |x, y| {
        let [red, green, blue, alpha] = rgba.get_pixel(x, y).0;
        let over = |value: u8| ((u32::from(value) * u32::from(alpha) + 255 * (255 - u32::from(alpha)) + 127) / 255) as u8;
        Rgb([over(red), over(green), over(blue)])
    })
}

/// The grey values of a picture: each the mean over its part of the picture's area, whatever the picture's shape. Colours count as in the grey of a JPEG
/// (Rec. 601), and what is transparent lies on white. A picture without pixels has none.
pub fn reduce(picture: &DynamicImage, grid: Grid) -> Option<Grey> {
    let (width, height) = (picture.width() as usize, picture.height() as usize);
    if width == 0 || height == 0 {
        return None;
    }
    const COLOURS: [u64; 3] = [299, 587, 114];
    Some(match picture {
        DynamicImage::ImageLuma8(grey) => means(grey.as_raw(), width, height, [1000], grid.side),
        DynamicImage::ImageRgb8(rgb) => means(rgb.as_raw(), width, height, COLOURS, grid.side),
        other => means(flat(other).as_raw(), width, height, COLOURS, grid.side),
    })
}

#[cfg(test)]
mod tests {
    use super::*;
    use image::{GrayImage, Luma, Rgba, RgbaImage};

    /// The same by definition: each pixel in as many parts a side as there are cells, each counted by itself.
    fn slow(width: u32, height: u32, side: u32, grey: impl Fn(u32, u32) -> f64) -> Grey {
        let mut cells = vec![0.0; (side * side) as usize];
        for y in 0..side * height {
            for x in 0..side * width {
                cells[(y / height * side + x / width) as usize] += grey(x / side, y / side);
            }
        }
        cells.into_iter().map(|cell: f64| (cell / f64::from(width * height)).round() as u8).collect()
    }

    fn value(x: u32, y: u32) -> u8 {
        (x.wrapping_mul(2_654_435_761).wrapping_add(y.wrapping_mul(40_503_001)) >> 7) as u8
    }

    #[test]
    fn means_by_definition() {
        for grid in [PLAIN, LINE_ENDS] {
            let side = grid.side as u32;
            for (width, height) in [(1, 1), (3, 5), (13, 14), (15, 17), (16, 16), (37, 16), (50, 33), (64, 128)] {
                let luma = GrayImage::from_fn(width, height, |x, y| Luma([value(x, y)]));
                let fast = reduce(&DynamicImage::ImageLuma8(luma), grid).unwrap();
                let by_definition = slow(width, height, side, |x, y| f64::from(value(x, y)));
                assert_eq!(fast.len(), grid.dim());
                assert!(fast.iter().zip(&by_definition).all(|(a, &b)| a.abs_diff(b) <= 1), "{width} x {height}");
                assert!(fast.iter().zip(&by_definition).filter(|(a, b)| a != b).count() <= 2, "{width} x {height}");

                let rgb = RgbImage::from_fn(width, height, |x, y| Rgb([value(x, y), value(y, x), value(x, x)]));
                let grey = |p: [u8; 3]| 0.299 * f64::from(p[0]) + 0.587 * f64::from(p[1]) + 0.114 * f64::from(p[2]);
                let by_definition = slow(width, height, side, |x, y| grey(rgb.get_pixel(x, y).0));
                let fast = reduce(&DynamicImage::ImageRgb8(rgb), grid).unwrap();
                assert!(fast.iter().zip(by_definition).all(|(a, b)| a.abs_diff(b) <= 1), "{width} x {height}");
            }
        }
    }

    #[test]
    fn kinds_of_pixels_agree() {
        let rgb = RgbImage::from_fn(40, 30, |x, y| Rgb([value(x, y); 3]));
        let luma = GrayImage::from_fn(40, 30, |x, y| Luma([value(x, y)]));
        let rgba = RgbaImage::from_fn(40, 30, |x, y| Rgba([value(x, y), value(x, y), value(x, y), 255]));
        let expected = reduce(&DynamicImage::ImageLuma8(luma), PLAIN);
        assert_eq!(reduce(&DynamicImage::ImageRgb8(rgb.clone()), PLAIN), expected);
        assert_eq!(reduce(&DynamicImage::ImageRgba8(rgba), PLAIN), expected);
        assert_eq!(reduce(&DynamicImage::ImageRgb16(DynamicImage::ImageRgb8(rgb).to_rgb16()), PLAIN), expected);
    }

    #[test]
    fn transparent_is_white_and_no_pixels_are_nothing() {
        let clear = RgbaImage::from_pixel(9, 9, Rgba([0, 0, 0, 0]));
        assert_eq!(reduce(&DynamicImage::ImageRgba8(clear), PLAIN), Some(vec![255; 256]));
        let black = RgbImage::from_pixel(9, 9, Rgb([0; 3]));
        assert_eq!(reduce(&DynamicImage::ImageRgb8(black), LINE_ENDS), Some(vec![0; 196]));
        assert_eq!(reduce(&DynamicImage::ImageLuma8(GrayImage::new(0, 7)), PLAIN), None);
    }

    #[test]
    fn weights_and_distances() {
        assert_eq!((PLAIN.weights(), PLAIN.sum_of_weights()), (vec![1; 256], 256));
        let weights = LINE_ENDS.weights();
        assert_eq!((weights.len(), LINE_ENDS.sum_of_weights()), (196, 252));
        assert_eq!((&weights[..14], &weights[182..]), (&[1, 1, 1, 1, 1, 1, 1, 1, 1, 1, 1, 1, 3, 3][..], &weights[..14]));
        let mut other = vec![7; 196];
        (other[11], other[12], other[195]) = (17, 4, 5);
        assert_eq!((LINE_ENDS.distance(&[7; 196], &other), LINE_ENDS.distance(&other, &[7; 196])), (100 + 3 * 9 + 3 * 4, 100 + 3 * 9 + 3 * 4));
        assert_eq!(PLAIN.distance(&[3; 256], &[5; 256]), 4 * 256);
    }

    #[test]
    fn contrast() {
        assert_eq!((PLAIN.contrast(&[77; 256]), LINE_ENDS.contrast(&[77; 196])), (0, 0));
        let mut half = [0; 256];
        half[..128].fill(10);
        // Each value is 5 from the mean.
        assert_eq!(PLAIN.contrast(&half), 256 * 256 * 25);
        // 28 values weigh 84 of 252, so the mean is 4, and the others weigh 168.
        let ends: Vec<u8> = LINE_ENDS.weights().into_iter().map(|weight| if weight == 3 { 12 } else { 0 }).collect();
        assert_eq!(LINE_ENDS.contrast(&ends), 252 * (84 * 64 + 168 * 16));
    }
}
