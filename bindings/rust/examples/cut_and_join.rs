//! Cuts a font for two halves of ASCII, and joins the cuts, which need not be full ones:
//!
//!     cut_and_join FONT full|lean|layout|variable OUT
use fontcut::{join, Font, Kind, Ranges};
use std::error::Error;

fn main() -> Result<(), Box<dyn Error>> {
    let words: Vec<String> = std::env::args().skip(1).collect();
    let [font, kind, out] = <[String; 3]>::try_from(words)
        .map_err(|_| "cut_and_join FONT full|lean|layout|variable OUT")?;
    let kind = match kind.as_str() {
        "lean" => Kind::Lean,
        "layout" => Kind::Layout,
        "variable" => Kind::Variable,
        _ => Kind::Full,
    };
    let file = std::fs::read(font)?;
    let font = Font::new(&file)?;
    let halves: [Ranges; 2] = [(' '..='M').collect(), ('N'..='~').collect()];
    let cuts = [font.cut(kind, &halves[0])?, font.cut(kind, &halves[1])?];
    std::fs::write(out, join(kind, &cuts)?)?;
    Ok(())
}
