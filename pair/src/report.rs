//! The report: one HTML file with the pictures in it.

use crate::names::html;
use std::io::{self, Write};

/// A picture in the report: its name as shown, and a small JPEG.
pub struct Shown<'a> {
    pub name: &'a str,
    pub thumb: &'a [u8],
}

/// One placeholder and what was found for it.
pub struct Row<'a> {
    pub placeholder: Shown<'a>,
    pub original: Option<(Shown<'a>, u32)>,
    pub second: Option<(Shown<'a>, u32)>,
    pub sure: bool,
    pub verdict: &'a str,
}

fn base64(bytes: &[u8]) -> String {
    const DIGITS: &[u8; 64] = b"ABCDEFGHIJKLMNOPQRSTUVWXYZabcdefghijklmnopqrstuvwxyz0123456789+/";
    let mut text = String::with_capacity(bytes.len().div_ceil(3) * 4);
    for part in bytes.chunks(3) {
        let number = (0..3).fold(0u32, |number, i| number << 8 | u32::from(*part.get(i).unwrap_or(&0)));
        for i in 0..4 {
            if i <= part.len() {
                text.push(char::from(DIGITS[(number >> (18 - 6 * i)) as usize & 63]));
            } else {
                text.push('=');
            }
        }
    }
    text
}

fn figure(out: &mut impl Write, what: &str, shown: &Shown<'_>, distance: Option<u32>) -> io::Result<()> {
    let name = html(shown.name);
    write!(out, "<figure><img alt=\"{name}\" src=\"data:image/jpeg;base64,{}\"><figcaption>{what}<br><b>{name}</b>", base64(shown.thumb))?;
    if let Some(distance) = distance {
        write!(out, "<br>distance {distance}")?;
    }
    writeln!(out, "</figcaption></figure>")
}

fn row(out: &mut impl Write, row: &Row<'_>) -> io::Result<()> {
    writeln!(out, "<section class=\"{}\"><p>{}</p>", if row.sure { "sure" } else { "unsure" }, html(row.verdict))?;
    figure(out, "placeholder", &row.placeholder, None)?;
    if let Some((original, distance)) = &row.original {
        figure(out, "original", original, Some(*distance))?;
    }
    // A sure pairing needs no second look.
    if let Some((second, distance)) = row.second.as_ref().filter(|_| !row.sure) {
        figure(out, "second", second, Some(*distance))?;
    }
    writeln!(out, "</section>")
}

const HEAD: &str = "<!doctype html>
<html lang=\"en\">
<head>
<meta charset=\"utf-8\">
<title>Placeholders and their originals</title>
<style>
body { font: 14px sans-serif; margin: 2em; }
section { display: flex; gap: 1em; align-items: flex-start; border-left: .5em solid #2a2; margin: .5em 0; padding: .2em 1em; }
section.unsure { border-color: #c22; }
section p { width: 9em; margin: 0; }
figure { margin: 0; width: 16em; overflow-wrap: anywhere; }
img { border: 1px solid #ccc; }
</style>
</head>
<body>
<h1>Placeholders and their originals</h1>
";

/// Writes the report: what was said, then the pairings that are not sure, then the sure ones.
pub fn write(out: &mut impl Write, said: &[String], rows: &[Row<'_>]) -> io::Result<()> {
    write!(out, "{HEAD}")?;
    writeln!(out, "<ul>")?;
    for line in said {
        writeln!(out, "<li>{}</li>", html(line))?;
    }
    writeln!(out, "</ul>")?;
    for (sure, title) in [(false, "Not sure"), (true, "Sure")] {
        let part: Vec<&Row<'_>> = rows.iter().filter(|row| row.sure == sure).collect();
        writeln!(out, "<h2>{title}: {}</h2>", part.len())?;
        for pairing in part {
            row(out, pairing)?;
        }
    }
    writeln!(out, "</body>\n</html>")?;
    out.flush()
}

#[cfg(test)]
mod tests {
    use super::*;

    #[test]
    fn base64_by_its_standard() {
        for (bytes, text) in [("", ""), ("f", "Zg=="), ("fo", "Zm8="), ("foo", "Zm9v"), ("foob", "Zm9vYg=="), ("fooba", "Zm9vYmE="), ("foobar", "Zm9vYmFy")] {
            assert_eq!(base64(bytes.as_bytes()), text);
        }
    }
}
