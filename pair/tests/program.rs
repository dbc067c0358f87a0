//! The program as it is run: bad files, odd names, twins, the report, the exit status.

use image::{DynamicImage, GrayImage, ImageFormat, Luma, Rgb, RgbImage};
use std::ffi::OsStr;
use std::os::unix::ffi::OsStrExt;
use std::path::{Path, PathBuf};
use std::process::{Command, Output};

/// Two fresh folders for one test.
fn folders(test: &str) -> (PathBuf, PathBuf) {
    let folder = Path::new(env!("CARGO_TARGET_TMPDIR")).join(test);
    let _ = std::fs::remove_dir_all(&folder);
    let both = (folder.join("originals"), folder.join("placeholders"));
    std::fs::create_dir_all(&both.0).unwrap();
    std::fs::create_dir_all(&both.1).unwrap();
    both
}

/// A picture of coarse patches, by its number.
fn picture(number: u32, width: u32, height: u32) -> DynamicImage {
    DynamicImage::ImageRgb8(RgbImage::from_fn(width, height, |x, y| {
        let patch = (x * 6 / width) * 7 + (y * 6 / height) * 31 + number * 1009;
        let value = (patch.wrapping_mul(2_654_435_761) >> 24) as u8;
        Rgb([value, value / 2, 255 - value])
    }))
}

fn save(folder: &Path, name: impl AsRef<OsStr>, picture: &DynamicImage, format: ImageFormat) {
    let path = folder.join(name.as_ref());
    if format == ImageFormat::Pnm {
        let rgb = picture.to_rgb8();
        std::fs::write(path, [format!("P6\n{} {}\n255\n", rgb.width(), rgb.height()).as_bytes(), rgb.as_raw()].concat()).unwrap();
    } else {
        picture.save_with_format(path, format).unwrap();
    }
}

fn run(both: &(PathBuf, PathBuf), more: &[&OsStr]) -> Output {
    Command::new(env!("CARGO_BIN_EXE_pair")).arg(&both.0).arg(&both.1).args(more).output().unwrap()
}

/// Exit status, lines, and what was said.
fn told(output: Output) -> (i32, Vec<String>, String) {
    let text = |bytes: Vec<u8>| String::from_utf8(bytes).unwrap();
    (output.status.code().unwrap(), text(output.stdout).lines().map(String::from).collect(), text(output.stderr))
}

fn fields(line: &str) -> Vec<&str> {
    line.split('\t').collect()
}

#[test]
fn pairs_of_every_format() {
    let both = folders("formats");
    for (number, format) in [ImageFormat::Png, ImageFormat::Jpeg, ImageFormat::Pnm].into_iter().enumerate() {
        save(&both.0, format!("o{number}"), &picture(number as u32, 300, 200), format);
        save(&both.1, format!("p{number}"), &picture(number as u32, 60, 40), format);
    }
    let (status, lines, said) = told(run(&both, &[]));
    assert_eq!((status, lines.len()), (0, 3), "{said}");
    // 0 is no figure number, so o0 gets the lowest that is free.
    for (number, (line, figure)) in lines.iter().zip(["3", "1", "2"]).enumerate() {
        let fields = fields(line);
        assert_eq!((fields[0], fields[1], fields[4]), (&*format!("p{number}"), &*format!("o{number}"), "sure"));
        assert_eq!((fields[5], fields.len()), (figure, 6));
        assert!(4 * fields[2].parse::<u32>().unwrap() < fields[3].parse::<u32>().unwrap());
    }
    assert!(said.contains("self-check: 3 of 3 originals find themselves") && said.contains("ratio"));
}

#[test]
fn bad_files_are_named_and_nothing_else_is_lost() {
    let both = folders("bad");
    for folder in [&both.0, &both.1] {
        save(folder, "good", &picture(1, 100, 80), ImageFormat::Png);
        save(folder, "other", &picture(2, 100, 80), ImageFormat::Png);
        save(folder, "whole", &picture(3, 100, 80), ImageFormat::Jpeg);
        let bytes = std::fs::read(folder.join("whole")).unwrap();
        std::fs::write(folder.join("cut.jpg"), &bytes[..bytes.len() / 3]).unwrap();
        let bytes = std::fs::read(folder.join("good")).unwrap();
        std::fs::write(folder.join("cut.png"), &bytes[..bytes.len() / 2]).unwrap();
        std::fs::write(folder.join("empty.png"), b"").unwrap();
        std::fs::write(folder.join("notes.txt"), b"no picture").unwrap();
        std::fs::write(folder.join("nothing.pgm"), b"P5 0 0 255\n").unwrap();
        std::fs::write(folder.join("huge.pgm"), b"P5 4000000000 4000000000 255\n").unwrap();
        std::fs::write(folder.join(OsStr::from_bytes(b"odd\xff\n.png")), b"\x89PNG\r\n\x1a\n").unwrap();
        std::fs::create_dir(folder.join("folder")).unwrap();
        std::os::unix::fs::symlink("good", folder.join("link")).unwrap();
    }
    let (status, lines, said) = told(run(&both, &[]));
    for folder in [&both.0, &both.1] {
        std::fs::remove_file(folder.join("link")).unwrap(); // `rt ci` refuses links anywhere in the repository's folder
    }
    assert_eq!((status, lines.len()), (1, 12), "{said}");
    let skipped = ["cut.jpg", "cut.png", "empty.png", "notes.txt", "nothing.pgm", "huge.pgm", "odd\\xff\\n.png", "folder", "link"];
    for name in skipped {
        assert!(lines.contains(&format!("{name}\t-\t-\t-\tskipped\t-")), "{name}: {lines:?}");
        assert!(said.contains(&format!("skipped original {name}: ")) && said.contains(&format!("skipped placeholder {name}: ")), "{name}: {said}");
    }
    for name in ["good", "other", "whole"] {
        let line = lines.iter().map(|line| fields(line)).find(|fields| fields[0] == name).unwrap();
        assert_eq!((line[1], line[2], line[4]), (name, "0", "sure"));
    }
    assert!(!said.contains("panicked"), "{said}");
}

/// Files with some bytes changed: whatever a decoder makes of them, each has its line and the program ends as it should.
#[test]
fn changed_bytes() {
    let both = folders("changed");
    let mut number = 1u32;
    for (format, name) in [(ImageFormat::Png, "png"), (ImageFormat::Jpeg, "jpg"), (ImageFormat::Pnm, "ppm")] {
        save(&both.0, name, &picture(1, 40, 30), format);
        let bytes = std::fs::read(both.0.join(name)).unwrap();
        for i in 0..200 {
            let mut changed = bytes.clone();
            for _ in 0..3 {
                number = number.wrapping_mul(1_664_525).wrapping_add(1_013_904_223);
                // Half of the changes are made where the sizes stand.
                let end = if i % 2 == 0 { changed.len() } else { changed.len().min(60) };
                changed[(number >> 8) as usize % end] = (number >> 16) as u8;
            }
            std::fs::write(both.1.join(format!("{name}-{i}")), changed).unwrap();
        }
    }
    let (status, lines, said) = told(run(&both, &[]));
    assert_eq!((status, lines.len()), (1, 600), "{said}");
    assert!(lines.iter().any(|line| line.ends_with("skipped\t-")) && lines.iter().any(|line| !line.ends_with("skipped\t-")));
    assert!(!said.contains("panicked"), "{said}");
}

#[test]
fn twins_and_strangers_are_not_sure() {
    let both = folders("twins");
    for (name, number) in [("a", 1), ("b", 1), ("c", 2), ("d", 3)] {
        save(&both.0, name, &picture(number, 100, 80), ImageFormat::Png);
    }
    save(&both.1, "of-a-or-b", &picture(1, 100, 80), ImageFormat::Png);
    save(&both.1, "of-c", &picture(2, 100, 80), ImageFormat::Png);
    save(&both.1, "of-none", &picture(77, 100, 80), ImageFormat::Png);
    let (status, lines, _) = told(run(&both, &[]));
    assert_eq!(status, 1);
    assert_eq!(lines[0], "of-a-or-b\ta\t0\t0\tnot sure: 2 originals look the same\t1");
    assert!(lines[1].starts_with("of-c\tc\t0\t") && lines[1].ends_with("\tsure\t3"));
    assert!(lines[2].starts_with("of-none\t") && lines[2].contains("not sure: "));
}

/// A grey sheet, and two originals with a band on it: a wider one at the left, a narrower one at the line ends, which is the nearer unless these count more.
#[test]
fn line_ends_decide() {
    let both = folders("line-ends");
    let band = |columns: std::ops::Range<u32>| {
        DynamicImage::ImageLuma8(GrayImage::from_fn(112, 112, |x, y| Luma([if columns.contains(&x) && y < 56 { 110 } else { 100 }])))
    };
    save(&both.0, "left-1", &band(0..24), ImageFormat::Png);
    save(&both.0, "ends-2", &band(96..112), ImageFormat::Png);
    save(&both.1, "sheet", &band(0..0), ImageFormat::Png);
    // 16 cells of 7 pixels: 8 lines of 2 cells that differ by 10 and one by 3, or of 3 by 10 and one by 4.
    let plain = "sheet\tends-2\t1672\t2528\tnot sure: too unlike\t2";
    // 14 cells of 8 pixels: 7 lines of 3 cells by 10, or of 2 whose weight is 3.
    let weighted = "sheet\tleft-1\t2100\t4200\tnot sure: too unlike\t1";
    assert_eq!(told(run(&both, &[])).1, [plain]);
    assert_eq!(told(run(&both, &["--line-ends".as_ref()])).1, [weighted]);

    // Whatever else is asked for, and where all is sure.
    let file = both.0.parent().unwrap().join("report.html");
    let (status, lines, said) = told(run(&both, &["--report".as_ref(), file.as_ref(), "--line-ends".as_ref()]));
    assert_eq!((status, lines), (1, vec![weighted.to_string()]));
    assert!(said.contains("self-check: 2 of 2 originals find themselves") && std::fs::read_to_string(file).unwrap().contains("distance 4200"));
    let both = folders("line-ends-sure");
    for number in 0..4 {
        save(&both.0, format!("o{number}"), &picture(number, 300, 200), ImageFormat::Png);
        save(&both.1, format!("p{number}"), &picture(number, 60, 40), ImageFormat::Png);
    }
    let (status, lines, said) = told(run(&both, &["--line-ends".as_ref()]));
    assert_eq!((status, lines.len()), (0, 4), "{said}");
    assert!(lines.iter().enumerate().all(|(number, line)| line.starts_with(&format!("p{number}\to{number}\t"))), "{lines:?}");
}

#[test]
fn report_is_escaped_and_has_the_unsure_first() {
    let both = folders("report");
    let odd = "<b>&\"'.png";
    save(&both.0, odd, &picture(1, 200, 80), ImageFormat::Png);
    save(&both.0, "plain", &picture(2, 20, 30), ImageFormat::Png);
    save(&both.1, "a-sure", &picture(1, 100, 40), ImageFormat::Png);
    save(&both.1, "b-stranger", &picture(77, 100, 40), ImageFormat::Png);
    std::fs::write(both.1.join("bad<i>"), b"").unwrap();
    let file = both.0.parent().unwrap().join("report.html");
    let (status, lines, said) = told(run(&both, &["--report".as_ref(), file.as_ref()]));
    assert_eq!((status, lines.len()), (1, 3), "{said}");
    let html = std::fs::read_to_string(file).unwrap();
    assert!(html.contains("&lt;b&gt;&amp;&quot;&#39;.png") && !html.contains(odd));
    assert!(html.contains("skipped placeholder bad&lt;i&gt;: ") && !html.contains("bad<i>"));
    assert!(html.find("b-stranger").unwrap() < html.find("a-sure").unwrap());
    // The stranger with its two nearest, the sure one with its original.
    assert_eq!(html.matches("src=\"data:image/jpeg;base64,/9j/").count(), 5);
    assert!(!html.contains("http"));
}

#[test]
fn nothing_to_pair_with() {
    let both = folders("empty");
    assert_eq!(told(run(&both, &[])).0, 0);
    save(&both.1, "alone", &picture(1, 50, 50), ImageFormat::Png);
    let (status, lines, _) = told(run(&both, &[]));
    assert_eq!((status, lines), (1, vec!["alone\t-\t-\t-\tnot sure: there is no original\t-".to_string()]));
}

#[test]
fn work_that_cannot_be_done() {
    let both = folders("cannot");
    let nowhere = (both.0.join("nowhere"), both.1.clone());
    let (status, lines, said) = told(run(&nowhere, &[]));
    assert_eq!((status, lines.len()), (2, 0));
    assert!(said.starts_with("pair: ") && said.contains("nowhere"));
    assert_eq!(told(run(&both, &["third".as_ref()])).0, 2);
    assert_eq!(told(run(&both, &["--wrong".as_ref()])).0, 2);
    assert_eq!(told(run(&both, &["--report".as_ref()])).0, 2);
    assert_eq!(told(run(&both, &["--report".as_ref(), both.0.as_ref()])).0, 2);
    assert_eq!(told(run(&both, &["--line-end".as_ref()])).0, 2);
    let (status, help, _) = told(run(&both, &["--help".as_ref()]));
    assert!(status == 0 && help.iter().any(|line| line.starts_with("  --line-ends")) && help.iter().any(|line| line.starts_with("  --report FILE")));
}

/// More originals than an index holds: a message, at once.
#[test]
fn too_many_originals() {
    let both = folders("many");
    let first = both.0.join("0");
    std::fs::write(&first, b"").unwrap();
    // Links to one file, so that no more is stored than names; a file system has a limit on links, where copies serve.
    for number in 1..=65_536 {
        let next = both.0.join(number.to_string());
        std::fs::hard_link(&first, &next).or_else(|_| std::fs::write(&next, b"")).unwrap();
    }
    let (status, lines, said) = told(run(&both, &[]));
    assert_eq!((status, lines.len()), (2, 0));
    assert!(said.starts_with("pair: 65537 originals are more than the 65536"), "{said}");
    std::fs::remove_dir_all(both.0.parent().unwrap()).unwrap();
}
