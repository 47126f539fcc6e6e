//! The characters that a text needs: its own, and those that a shaper takes for them or puts in beside them.
//! docs/FORMAT.md has the table.
use crate::calls::{
    filled, fontcut_lost, fontcut_needed, fontcut_variants, Request, CHECKED, CLOSES, DONE,
};
use crate::{Cut, Error, Font, Kind, Losses, Ranges};

/// The characters that a text needs: its own, and those that a shaper takes for them or puts in beside them. A layout
/// or variable cut for these shapes the text as the whole font does. [`Font::cut_text`] wants them.
///
/// # Errors
///
/// 16 if out of memory.
///
/// ```
/// use fontcut::needed;
///
/// assert_eq!("U+20, U+65, U+E9, U+301, U+25CC", needed("e\u{301}")?.to_string());
/// assert_eq!("U+20, U+2D, U+2010-2011", needed("\u{2011}")?.to_string());
/// # Ok::<(), fontcut::Error>(())
/// ```
pub fn needed(text: &str) -> Result<Ranges, Error> {
    // SAFETY: the place and the length are those of a text; the call writes to its room alone, which is a vector's own,
    // and to the front of it as many ranges as it says.
    let needed = unsafe {
        filled(64, |out, room| {
            fontcut_needed(text.as_ptr(), text.len(), out, room)
        })
    };
    needed.map(Ranges::from_sorted).map_err(Error::of_one_file)
}

impl Font<'_> {
    /// The glyphs that the font has for the variation sequences of a text, ascending: each sequence is a character and the
    /// selector that follows it. [`Font::cut_text`] wants them.
    ///
    /// # Errors
    ///
    /// 16 if out of memory.
    pub fn variants(&self, text: &str) -> Result<Vec<u16>, Error> {
        let font = self.bytes;
        // SAFETY: the font was accepted, the places and the lengths are those of slices; the call writes to its room
        // alone, which is a vector's own, and to the front of it as many glyphs as it says.
        let variants = unsafe {
            filled(64, |out, room| {
                let (first, length) = (text.as_ptr(), text.len());
                fontcut_variants(CHECKED, font.as_ptr(), font.len(), first, length, out, room)
            })
        };
        variants.map_err(Error::of_one_file)
    }

    /// The cut of a kind for a text: what the program makes with `--text`. Layout and variable cuts have all characters
    /// that the text needs ([`needed`]) and the glyphs of its variation sequences ([`Font::variants`]); full and lean
    /// cuts, which are not shaped, have the characters of the text. For the
    /// characters of the text alone in any kind of cut, give them to [`Font::cut`].
    ///
    /// # Errors
    ///
    /// Those of [`Font::cut`].
    ///
    /// ```
    /// # fn main() -> Result<(), Box<dyn std::error::Error>> {
    /// # let path = "/usr/share/fonts/truetype/dejavu/DejaVuSans.ttf";
    /// # let file = match std::fs::read(path) { Ok(file) => file, Err(_) => return Ok(()) };
    /// use fontcut::{Font, Kind};
    ///
    /// let font = Font::new(&file)?;
    /// let cut = font.cut_text(Kind::Layout, "e\u{301}")?;
    /// assert_eq!("U+20, U+65, U+E9, U+301, U+25CC", Font::new(&cut)?.codes()?.to_string());
    /// # Ok(())
    /// # }
    /// ```
    pub fn cut_text(&self, kind: Kind, text: &str) -> Result<Cut, Error> {
        let (codes, glyphs) = match kind {
            Kind::Layout | Kind::Variable => (needed(text)?, self.variants(text)?),
            Kind::Full | Kind::Lean => (text.chars().collect(), Vec::new()),
        };
        self.cut_by(kind, &Request::new(kind, CLOSES, &codes, &glyphs))
            .map_err(Error::of_one_file)
    }

    /// What a cut of a kind for the wanted characters lacks or drops of what they need, as the program says it. The cut is
    /// not made. No call warns of it: ask where a user is told.
    ///
    /// # Errors
    ///
    /// 16 if out of memory.
    ///
    /// ```
    /// # fn main() -> Result<(), Box<dyn std::error::Error>> {
    /// # let path = "/usr/share/fonts/truetype/dejavu/DejaVuSans.ttf";
    /// # let file = match std::fs::read(path) { Ok(file) => file, Err(_) => return Ok(()) };
    /// use fontcut::{Font, Kind};
    ///
    /// let font = Font::new(&file)?;
    /// let lost = font.lost(Kind::Lean, &"Hello \u{628}\u{627}".chars().collect())?;
    /// assert_eq!((1, 0x627), (lost.scripts, lost.first_unshaped));
    /// # Ok(())
    /// # }
    /// ```
    pub fn lost(&self, kind: Kind, wanted: &Ranges) -> Result<Losses, Error> {
        let (request, mut losses) = (Request::new(kind, 0, wanted, &[]), Losses::default());
        // SAFETY: the font was accepted, and the call reads it and the request, and writes to `losses` alone.
        let answer =
            unsafe { fontcut_lost(&request, self.bytes.as_ptr(), self.bytes.len(), &mut losses) };
        match answer.status {
            DONE => Ok(losses),
            _ => Err(Error::of_one_file(answer)),
        }
    }

    /// The first of the wanted characters that the font shapes and its cut of a kind does not, if there is one: one of a
    /// script whose text cannot be read where nothing shapes it, as Arabic or Devanagari.
    ///
    /// # Errors
    ///
    /// 16 if out of memory.
    ///
    /// ```
    /// # fn main() -> Result<(), Box<dyn std::error::Error>> {
    /// # let path = "/usr/share/fonts/truetype/dejavu/DejaVuSans.ttf";
    /// # let file = match std::fs::read(path) { Ok(file) => file, Err(_) => return Ok(()) };
    /// use fontcut::{Font, Kind};
    ///
    /// let font = Font::new(&file)?;
    /// let wanted = "Hello \u{628}\u{627}".chars().collect();
    /// assert_eq!(font.unshaped(Kind::Lean, &wanted)?, Some('\u{627}'));
    /// assert_eq!(font.unshaped(Kind::Layout, &wanted)?, None);
    /// # Ok(())
    /// # }
    /// ```
    pub fn unshaped(&self, kind: Kind, wanted: &Ranges) -> Result<Option<char>, Error> {
        let first = self.lost(kind, wanted)?.first_unshaped;
        Ok(char::from_u32(first).filter(|_| first != 0))
    }
}
