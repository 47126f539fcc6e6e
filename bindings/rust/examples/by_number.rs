//! Cuts a font for two halves of ASCII and for every seventh glyph of it, from the first and from the fourth one on,
//! and joins the cuts. Prints the closure of what the first half wants, and the glyphs that the join keeps:
//!
//!     by_number FONT lean|layout|variable OUT
use fontcut::{join, Font, Kind, Ranges, Wanted};
use std::error::Error;

fn line_of(glyphs: &[u16]) -> String {
    let words: Vec<String> = glyphs.iter().map(u16::to_string).collect();
    words.join(" ")
}

fn main() -> Result<(), Box<dyn Error>> {
    let words: Vec<String> = std::env::args().skip(1).collect();
    let [font, kind, out] =
        <[String; 3]>::try_from(words).map_err(|_| "by_number FONT lean|layout|variable OUT")?;
    let kind = match kind.as_str() {
        "layout" => Kind::Layout,
        "variable" => Kind::Variable,
        _ => Kind::Lean,
    };
    let file = std::fs::read(font)?;
    let font = Font::new(&file)?;
    let halves: [Ranges; 2] = [(' '..='M').collect(), ('N'..='~').collect()];
    let every_seventh = |first| (first..font.info().glyph_count).step_by(7).collect();
    let wanted: Vec<Wanted> = halves
        .into_iter()
        .zip([0, 3])
        .map(|(codes, first)| Wanted {
            codes,
            glyphs: every_seventh(first),
        })
        .collect();
    let both = join(kind, font.exact_cuts(kind, &wanted)?)?;
    println!("{}", line_of(&font.closure(kind, &wanted[0])?));
    println!("{}", line_of(&both.font().kept_glyphs(kind)?));
    std::fs::write(out, both)?;
    Ok(())
}
