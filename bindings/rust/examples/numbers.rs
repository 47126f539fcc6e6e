//! Prints the numbers of a font in a line, and a line for each character that it maps, with its glyph and the metrics
//! of that:
//!
//!     numbers FONT
use fontcut::Font;
use std::error::Error;
use std::io::{self, BufWriter, Write};

fn main() -> Result<(), Box<dyn Error>> {
    let path = std::env::args().nth(1).ok_or("numbers FONT")?;
    let file = std::fs::read(path)?;
    let font = Font::new(&file)?;
    let codes: Vec<u32> = font.codes()?.iter().flatten().collect();
    let glyphs = font.glyphs(codes.iter().copied());
    let metrics = font.metrics(&glyphs)?;
    let mut out = BufWriter::new(io::stdout().lock());
    let it = font.info();
    write!(out, "{} {} ", it.glyph_count, it.units_per_em)?;
    write!(out, "{} {} {} {} ", it.x_min, it.y_min, it.x_max, it.y_max)?;
    writeln!(out, "{} {}", it.ascender, it.descender)?;
    for ((code, glyph), metric) in codes.iter().zip(&glyphs).zip(&metrics) {
        let (advance, bearing) = (metric.advance, metric.bearing);
        writeln!(out, "U+{code:04X} {glyph} {advance} {bearing}")?;
    }
    Ok(out.flush()?)
}
