//! Cuts for characters and for glyphs by their numbers.
use crate::calls::{self, filled, Request};
use crate::{Cut, Error, Font, Kind, Ranges};

/// How many glyphs a font has at most.
const MOST_GLYPHS: usize = u16::MAX as usize;

/// What is wanted of a font: characters, and glyphs by their numbers.
///
/// ```
/// use fontcut::Wanted;
///
/// let codes = "office".chars().collect();
/// let wanted = Wanted { codes, glyphs: vec![82, 5042, 70, 72] };
/// # assert!(!wanted.glyphs.is_empty());
/// ```
#[derive(Clone, Debug, Default, PartialEq, Eq)]
pub struct Wanted {
    /// The characters.
    pub codes: Ranges,
    /// The numbers of the glyphs, in any order and as often as they come.
    pub glyphs: Vec<u16>,
}

impl Font<'_> {
    /// All characters and all glyphs of the font.
    #[must_use]
    pub fn everything(&self) -> Wanted {
        let (codes, glyphs) = (Ranges::all(), (0..self.info().glyph_count).collect());
        Wanted { codes, glyphs }
    }

    /// The cut of a kind for just what is wanted, and the components of that. Characters that the font does not map are
    /// ignored.
    ///
    /// A shaper gives the glyphs of a text: with these, and with the characters that docs/FORMAT.md says a text
    /// needs, the cut shapes the text that it was made for, and is smaller than that of [`Font::cut`], which has each
    /// glyph that `GSUB` may put. **Other text may vanish in it**, without a fallback font: a glyph that `GSUB` puts
    /// and the cut lacks is blank. [`Font::closure`] gives the glyphs that serve other text. Such cuts join with all
    /// others of their kind.
    ///
    /// # Errors
    ///
    /// 104 if glyphs are wanted of [`Kind::Full`], whose cuts are for characters alone, and 102 if the font has
    /// no glyph of a number. 16 if out of memory, and 18 if the cut would be too large for a file. Of
    /// [`Kind::Layout`] also 5 and 6, and of [`Kind::Variable`] 5, 6 and 28.
    ///
    /// ```
    /// # fn main() -> Result<(), Box<dyn std::error::Error>> {
    /// # let path = "/usr/share/fonts/truetype/dejavu/DejaVuSans.ttf";
    /// # let file = match std::fs::read(path) { Ok(file) => file, Err(_) => return Ok(()) };
    /// use fontcut::{Font, Kind, Wanted};
    ///
    /// let font = Font::new(&file)?;
    /// // The glyphs that a shaper puts for this text, with the ligature of `ffi`.
    /// let glyphs = font.glyphs("o\u{FB03}ce".chars());
    /// let wanted = Wanted { codes: "office".chars().collect(), glyphs };
    /// let exact = font.exact_cut(Kind::Layout, &wanted)?;
    /// assert!(exact.len() < font.cut(Kind::Layout, &wanted.codes)?.len());
    /// # Ok(())
    /// # }
    /// ```
    pub fn exact_cut(&self, kind: Kind, wanted: &Wanted) -> Result<Cut, Error> {
        self.cut_by(kind, &Request::new(kind, 0, &wanted.codes, &wanted.glyphs))
            .map_err(|answer| Error::of_glyphs(answer, [wanted]))
    }

    /// How many bytes the cut of [`Font::exact_cut`] has. No cut is made.
    ///
    /// # Errors
    ///
    /// Those of [`Font::exact_cut`].
    pub fn exact_cut_size(&self, kind: Kind, wanted: &Wanted) -> Result<u64, Error> {
        self.size_by(&Request::new(kind, 0, &wanted.codes, &wanted.glyphs))
            .map_err(|answer| Error::of_glyphs(answer, [wanted]))
    }

    /// The cuts of a kind for many sets of what is wanted: what [`Font::exact_cut`] makes for each, in their order. The
    /// font is looked through once for all of them.
    ///
    /// # Errors
    ///
    /// Those of [`Font::exact_cut`], where 18 has the size of the first cut that would be too large for a file.
    pub fn exact_cuts<'s, I>(&self, kind: Kind, sets: I) -> Result<Vec<Cut>, Error>
    where
        I: IntoIterator<Item = &'s Wanted>,
    {
        let sets: Vec<&Wanted> = sets.into_iter().collect();
        let requests: Vec<_> = sets
            .iter()
            .map(|set| Request::new(kind, 0, &set.codes, &set.glyphs))
            .collect();
        self.cuts_by(kind, &requests)
            .map_err(|answer| Error::of_glyphs(answer, sets))
    }

    /// The glyphs that a shaper may put for text of the wanted characters and glyphs, ascending: `.notdef`, the glyphs
    /// of the characters, the given ones, and what `GSUB` leads to from these. Full and lean cuts have no `GSUB` to
    /// follow.
    ///
    /// # Errors
    ///
    /// 104 if glyphs are given for [`Kind::Full`], 102 if the font has no glyph of a number, and 16 if out of memory. Of [`Kind::Layout`] also 5, 6 and
    /// 27, and of [`Kind::Variable`] 5, 6, 27 and 28.
    ///
    /// ```
    /// # fn main() -> Result<(), Box<dyn std::error::Error>> {
    /// # let path = "/usr/share/fonts/truetype/dejavu/DejaVuSans.ttf";
    /// # let file = match std::fs::read(path) { Ok(file) => file, Err(_) => return Ok(()) };
    /// use fontcut::{Font, Kind, Wanted};
    ///
    /// let font = Font::new(&file)?;
    /// let mut wanted = Wanted { codes: "office".chars().collect(), ..Wanted::default() };
    /// wanted.glyphs = font.closure(Kind::Layout, &wanted)?;
    /// assert!(wanted.glyphs.contains(&font.glyphs(['\u{FB03}'])[0]));
    /// assert_eq!(font.exact_cut(Kind::Layout, &wanted)?, font.cut(Kind::Layout, &wanted.codes)?);
    /// # Ok(())
    /// # }
    /// ```
    pub fn closure(&self, kind: Kind, wanted: &Wanted) -> Result<Vec<u16>, Error> {
        let request = Request::new(kind, 0, &wanted.codes, &wanted.glyphs);
        let font = self.bytes;
        // SAFETY: as in `cut_by`; the room is in glyphs.
        let closed = unsafe {
            filled(MOST_GLYPHS, |out, room| {
                calls::fontcut_closure(&request, font.as_ptr(), font.len(), out, room)
            })
        };
        closed.map_err(|answer| Error::of_glyphs(answer, [wanted]))
    }

    /// The glyphs that the font keeps as a cut of a kind, ascending: `.notdef`, the glyphs of its characters, in all
    /// but full cuts those that have an outline, metrics or variation data, and the components of all these. A lean,
    /// layout or variable cut is the exact cut of its font for these and for its [`Font::codes`].
    ///
    /// # Errors
    ///
    /// 16 if out of memory. Of [`Kind::Layout`] also 5 and 6, and of [`Kind::Variable`] 5, 6 and 28.
    pub fn kept_glyphs(&self, kind: Kind) -> Result<Vec<u16>, Error> {
        let font = self.bytes;
        // SAFETY: as in `closure`.
        let kept = unsafe {
            filled(MOST_GLYPHS, |out, room| {
                calls::fontcut_kept(kind as u32, font.as_ptr(), font.len(), out, room)
            })
        };
        kept.map_err(Error::of_one_file)
    }
}
