//! Cuts a font for each text FOLDER/0.txt, FOLDER/1.txt and so on, and writes FOLDER/0.ttf and so on. A last word takes
//! the characters and variation sequences of the texts alone:
//!
//!     by_text FONT full|lean|layout|variable FOLDER [exactly]
use fontcut::{Cut, Font, Kind, Wanted};
use std::error::Error;
use std::path::Path;

/// The cut of a kind for the characters and sequences of a text alone.
fn own_cut(font: &Font<'_>, kind: Kind, text: &str) -> Result<Cut, fontcut::Error> {
    let codes = text.chars().collect();
    if matches!(kind, Kind::Full | Kind::Lean) {
        return font.cut(kind, &codes);
    }
    let glyphs = font.variants(text)?;
    let mut wanted = Wanted { codes, glyphs };
    wanted.glyphs = font.closure(kind, &wanted)?;
    font.exact_cut(kind, &wanted)
}

fn main() -> Result<(), Box<dyn Error>> {
    let words: Vec<String> = std::env::args().skip(1).collect();
    let [font, kind, folder] = match words.get(..3) {
        Some([font, kind, folder]) => [font, kind, folder],
        _ => return Err("by_text FONT full|lean|layout|variable FOLDER [exactly]".into()),
    };
    let kind = match kind.as_str() {
        "lean" => Kind::Lean,
        "layout" => Kind::Layout,
        "variable" => Kind::Variable,
        _ => Kind::Full,
    };
    let is_exact = words.len() > 3;
    let file = std::fs::read(font)?;
    let font = Font::new(&file)?;
    for number in 0.. {
        let path = Path::new(folder).join(format!("{number}.txt"));
        if !path.exists() {
            break;
        }
        let text = std::fs::read_to_string(&path)?;
        let cut = if is_exact {
            own_cut(&font, kind, &text)?
        } else {
            font.cut_text(kind, &text)?
        };
        std::fs::write(path.with_extension("ttf"), cut)?;
    }
    Ok(())
}
