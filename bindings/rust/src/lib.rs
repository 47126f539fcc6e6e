//! Cuts of OpenType fonts with TrueType outlines for wanted characters, and joins of cuts, in memory.
//!
//! Every call of the library below is proved: it is safe on all bytes, and does what it says. A cut keeps the numbers
//! of its glyphs, and cuts of one font, of one kind, join byte for byte into the cut for the characters of all of them,
//! with no font at hand.
//!
//! ```
//! # fn main() -> Result<(), Box<dyn std::error::Error>> {
//! # let path = "/usr/share/fonts/truetype/dejavu/DejaVuSans.ttf";
//! # let file = match std::fs::read(path) { Ok(file) => file, Err(_) => return Ok(()) };
//! use fontcut::{join, Font, Kind, Ranges};
//!
//! let font = Font::new(&file)?;
//! let hello = font.cut(Kind::Lean, &"Hello".chars().collect())?;
//! let greek = font.cut(Kind::Lean, &['\u{370}'..='\u{3FF}'].into_iter().collect())?;
//! let both = join(Kind::Lean, [&hello, &greek])?;
//!
//! let all: Ranges = "Hello".chars().chain('\u{370}'..='\u{3FF}').collect();
//! assert_eq!(both, font.cut(Kind::Lean, &all)?);
//! # Ok(())
//! # }
//! ```
#![deny(unsafe_op_in_unsafe_fn)]
#![warn(missing_docs)]

mod calls;
mod cut;
mod error;
mod exact;
mod needed;
mod numbers;
mod ranges;

pub use cut::Cut;
pub use error::{Argument, Error};
pub use exact::Wanted;
pub use needed::needed;
pub use numbers::{Info, Losses, Metric, NoGlyph};
pub use ranges::Ranges;

use calls::{filled, length, Answer, Bytes, Request, CHECKED, CLOSES, DONE, NO_GLYPH, SMALL_ROOM};

/// A kind of cuts. Cuts join with cuts of their own kind.
#[derive(Clone, Copy, Debug, PartialEq, Eq, Hash)]
pub enum Kind {
    /// Cuts with the metrics and the names of all glyphs of their font.
    Full = 0,
    /// Lean cuts: zeros for the metrics of glyphs that are not kept, and no names of glyphs.
    Lean = 1,
    /// Layout cuts: lean cuts with the layout tables (`BASE`, `GDEF`, `GPOS`, `GSUB` and `kern`, without their parts
    /// for variable fonts), and with each glyph that `GSUB` may put for those of the wanted characters.
    ///
    /// A call for them reads these tables, and refuses a font that is accepted as such: by 5 or 6 for one of them, and
    /// by 27 if links of `GSUB` are to be followed and it cannot be read.
    Layout = 2,
    /// Variable cuts: layout cuts that keep variations, with the layout tables whole, with `fvar`, `avar`, `cvar`,
    /// `HVAR`, `MVAR`, `STAT` and `VVAR`, and with `gvar` for the glyphs that are kept.
    ///
    /// A call for them reads these tables too, and refuses a font that is accepted as such: by 5 or 6 for one of them,
    /// by 27 as layout cuts are, and by 28 if `gvar` cannot be read.
    Variable = 3,
}

/// In which form a font is a cut.
#[derive(Clone, Copy, Debug, PartialEq, Eq, Hash)]
pub enum Form {
    /// As it is written now.
    Current,
    /// As the first profile of the format had it. A join takes it, and writes the current form.
    Old,
}

/// A font file that was accepted.
#[derive(Clone, Copy, Debug)]
pub struct Font<'a> {
    bytes: &'a [u8],
}

impl<'a> Font<'a> {
    /// Accepts a font file.
    ///
    /// # Errors
    ///
    /// The first refusal that applies, by its number from 1 to 14, or 17.
    pub fn new(bytes: &'a [u8]) -> Result<Font<'a>, Error> {
        // SAFETY: the place and the length are those of a slice, which a call reads.
        let answer = unsafe { calls::fontcut_check(bytes.as_ptr(), bytes.len()) };
        done(answer).map(|_| Font { bytes })
    }

    /// The bytes of the file.
    #[must_use]
    pub fn bytes(&self) -> &'a [u8] {
        self.bytes
    }

    /// The cut of a kind for the wanted characters. Those that the font does not map are ignored. Layout and
    /// variable cuts have each glyph that `GSUB` may put for them, for text of these characters in any order;
    /// [`Font::exact_cut`] has just what is asked for.
    ///
    /// # Errors
    ///
    /// 16 if out of memory, and 18 if the cut would be too large for a file. Of [`Kind::Layout`] also 5, 6
    /// and 27, and of [`Kind::Variable`] 5, 6, 27 and 28.
    pub fn cut(&self, kind: Kind, wanted: &Ranges) -> Result<Cut, Error> {
        self.cut_by(kind, &Request::new(kind, CLOSES, wanted, &[]))
            .map_err(Error::of_one_file)
    }

    /// The cut for a request of a kind.
    fn cut_by(&self, kind: Kind, request: &Request<'_>) -> Result<Cut, Answer> {
        let font = self.bytes;
        // A cut is seldom longer than its font; if it is, the call says how long.
        let room = font.len().saturating_add(4096);
        // SAFETY: `new` has accepted these bytes, which nobody changes while they are borrowed. The request points to
        // slices that live as long as it; the call writes to its room alone, which is a vector's own, and to the front
        // of it as many bytes as it says.
        let made = unsafe {
            filled(room, |out, room| {
                calls::fontcut_subset(request, font.as_ptr(), font.len(), out, room)
            })
        };
        made.map(|bytes| Cut::new(kind, bytes))
    }

    /// How many bytes that cut has.
    fn size_by(&self, request: &Request<'_>) -> Result<u64, Answer> {
        // SAFETY: as in `cut_by`; there is no room that could be written to.
        let answer = unsafe {
            let (font, none) = (self.bytes, std::ptr::null_mut());
            calls::fontcut_subset(request, font.as_ptr(), font.len(), none, 0)
        };
        match answer.status {
            SMALL_ROOM => Ok(answer.size),
            _ => Err(answer),
        }
    }

    /// The cuts for requests of a kind.
    fn cuts_by(&self, kind: Kind, requests: &[Request<'_>]) -> Result<Vec<Cut>, Answer> {
        if requests.is_empty() {
            return Ok(Vec::new());
        }
        let (font, mut sizes) = (self.bytes, vec![0; requests.len()]);
        let (places, place_count) = (sizes.as_mut_ptr(), sizes.len());
        // How long the cuts are cannot be guessed, for each repeats the tables that it copies: the first call has no
        // room and says it.
        // SAFETY: as in `cut_by`; the call also writes to `sizes`, which has a place for each request.
        let made = unsafe {
            filled(0, |out, room| {
                calls::fontcut_subsets(
                    requests.as_ptr(),
                    requests.len(),
                    font.as_ptr(),
                    font.len(),
                    out,
                    room,
                    places,
                    place_count,
                )
            })
        };
        made.map(|made| split(kind, sizes, &made))
    }

    /// The cuts of a kind for many sets of wanted characters: what [`Font::cut`] makes for each set, in the order of
    /// the sets. The font is looked through once for all of them.
    ///
    /// # Errors
    ///
    /// Those of [`Font::cut`], where 18 has the size of the first cut that would be too large for a file.
    ///
    /// ```
    /// # fn main() -> Result<(), Box<dyn std::error::Error>> {
    /// # let path = "/usr/share/fonts/truetype/dejavu/DejaVuSans.ttf";
    /// # let file = match std::fs::read(path) { Ok(file) => file, Err(_) => return Ok(()) };
    /// use fontcut::{Font, Kind, Ranges};
    ///
    /// let font = Font::new(&file)?;
    /// let slices: Vec<Ranges> = ["abc", "xyz"].iter().map(|text| text.chars().collect()).collect();
    /// let cuts = font.cuts(Kind::Lean, &slices)?;
    /// assert_eq!(cuts, [font.cut(Kind::Lean, &slices[0])?, font.cut(Kind::Lean, &slices[1])?]);
    /// # Ok(())
    /// # }
    /// ```
    pub fn cuts<'s, I>(&self, kind: Kind, sets: I) -> Result<Vec<Cut>, Error>
    where
        I: IntoIterator<Item = &'s Ranges>,
    {
        let wanted = |codes| Request::new(kind, CLOSES, codes, &[]);
        let requests: Vec<_> = sets.into_iter().map(wanted).collect();
        self.cuts_by(kind, &requests).map_err(Error::of_one_file)
    }

    /// How many bytes the cut of a kind for the wanted characters has. No cut is made.
    ///
    /// # Errors
    ///
    /// Those of [`Font::cut`].
    pub fn cut_size(&self, kind: Kind, wanted: &Ranges) -> Result<u64, Error> {
        self.size_by(&Request::new(kind, CLOSES, wanted, &[]))
            .map_err(Error::of_one_file)
    }

    /// The characters that the font maps.
    ///
    /// # Errors
    ///
    /// 16 if out of memory.
    pub fn codes(&self) -> Result<Ranges, Error> {
        let font = self.bytes;
        // SAFETY: as in `cut`; a range of C has two numbers of 32 bits, as ours has.
        let codes = unsafe {
            filled(64, |out, room| {
                calls::fontcut_codes(font.as_ptr(), font.len(), out, room)
            })
        };
        codes.map(Ranges::from_sorted).map_err(Error::of_one_file)
    }

    /// Whether the font is a cut of a kind, and in which form.
    ///
    /// # Errors
    ///
    /// 16 if out of memory. Of [`Kind::Layout`] also 5 and 6, and of [`Kind::Variable`] 5, 6 and 28.
    pub fn form(&self, kind: Kind) -> Result<Option<Form>, Error> {
        // SAFETY: the place and the length are those of a slice, which the call reads.
        let answer =
            unsafe { calls::fontcut_cut_form(kind as u32, self.bytes.as_ptr(), self.bytes.len()) };
        done(answer).map(|answer| match answer.detail {
            1 => Some(Form::Current),
            2 => Some(Form::Old),
            _ => None,
        })
    }

    /// Whether this font is a cut of another one, of a kind, for some characters and glyphs.
    ///
    /// # Errors
    ///
    /// 16 if out of memory. Of [`Kind::Layout`] also 5 and 6, and of [`Kind::Variable`] 5, 6 and 28, with 0 as
    /// the file for this font, and 1 for the other one.
    pub fn belongs_to(&self, kind: Kind, font: &Font<'_>) -> Result<bool, Error> {
        // SAFETY: the places and lengths are those of slices, which the call reads.
        let answer = unsafe {
            let (cut, cut_length) = (self.bytes.as_ptr(), self.bytes.len());
            calls::fontcut_belongs(
                kind as u32,
                cut,
                cut_length,
                font.bytes.as_ptr(),
                font.bytes.len(),
            )
        };
        if answer.status == DONE {
            Ok(answer.detail == 1)
        } else {
            Err(Error::of_several_files(answer))
        }
    }

    /// The glyph to which the font maps each character or code point, in their order: 0 if it maps one to none.
    ///
    /// ```
    /// # fn main() -> Result<(), Box<dyn std::error::Error>> {
    /// # let path = "/usr/share/fonts/truetype/dejavu/DejaVuSans.ttf";
    /// # let file = match std::fs::read(path) { Ok(file) => file, Err(_) => return Ok(()) };
    /// use fontcut::Font;
    ///
    /// let font = Font::new(&file)?;
    /// assert_eq!(font.glyphs("Aa".chars()), [36, 68]);
    /// assert_eq!(font.glyphs([0x41_u32, 0x10_FFFF, 0x61]), [36, 0, 68]);
    /// # Ok(())
    /// # }
    /// ```
    #[must_use]
    pub fn glyphs<I>(&self, codes: I) -> Vec<u16>
    where
        I: IntoIterator,
        I::Item: Into<u32>,
    {
        let codes: Vec<u32> = codes.into_iter().map(Into::into).collect();
        let mut glyphs = vec![0; codes.len()];
        // SAFETY: `new` has accepted these bytes; the places and lengths are those of slices; the call writes to
        // `glyphs` alone.
        let answer = unsafe {
            let (first, count) = (codes.as_ptr(), codes.len());
            calls::fontcut_glyphs(
                CHECKED,
                self.bytes.as_ptr(),
                self.bytes.len(),
                first,
                count,
                glyphs.as_mut_ptr(),
                glyphs.len(),
            )
        };
        assert_eq!(answer.status, DONE, "the font was accepted");
        glyphs
    }

    /// The advance width and the left side bearing of each glyph, in font units and in the order of the glyphs.
    ///
    /// # Errors
    ///
    /// The first number that is no glyph of the font.
    ///
    /// ```
    /// # fn main() -> Result<(), Box<dyn std::error::Error>> {
    /// # let path = "/usr/share/fonts/truetype/dejavu/DejaVuSans.ttf";
    /// # let file = match std::fs::read(path) { Ok(file) => file, Err(_) => return Ok(()) };
    /// use fontcut::{Font, NoGlyph};
    ///
    /// let font = Font::new(&file)?;
    /// let widths = font.metrics(&font.glyphs("Hello".chars()))?;
    /// let width: u32 = widths.iter().map(|metric| u32::from(metric.advance)).sum();
    /// assert_eq!(width, 5191);
    /// let refused = font.metrics(&[0, 65_535]).unwrap_err();
    /// assert_eq!(refused, NoGlyph { index: 1, glyph: 65_535 });
    /// # Ok(())
    /// # }
    /// ```
    pub fn metrics(&self, glyphs: &[u16]) -> Result<Vec<Metric>, NoGlyph> {
        let mut metrics = vec![Metric::default(); glyphs.len()];
        // SAFETY: `new` has accepted these bytes; the places and lengths are those of slices; the call writes to
        // `metrics` alone, and a metric of C has two numbers of 16 bits, as ours has.
        let answer = unsafe {
            let (first, count) = (glyphs.as_ptr(), glyphs.len());
            calls::fontcut_metrics(
                CHECKED,
                self.bytes.as_ptr(),
                self.bytes.len(),
                first,
                count,
                metrics.as_mut_ptr(),
                metrics.len(),
            )
        };
        if answer.status == NO_GLYPH {
            let index = answer.detail as usize;
            let glyph = glyphs[index];
            return Err(NoGlyph { index, glyph });
        }
        assert_eq!(answer.status, DONE, "the font was accepted");
        Ok(metrics)
    }

    /// The numbers of the whole font: how many glyphs it has, its units, its box, and how high its lines are.
    ///
    /// ```
    /// # fn main() -> Result<(), Box<dyn std::error::Error>> {
    /// # let path = "/usr/share/fonts/truetype/dejavu/DejaVuSans.ttf";
    /// # let file = match std::fs::read(path) { Ok(file) => file, Err(_) => return Ok(()) };
    /// let info = fontcut::Font::new(&file)?.info();
    /// assert_eq!(info.units_per_em, 2048);
    /// assert_eq!((info.ascender, info.descender), (1901, -483));
    /// # Ok(())
    /// # }
    /// ```
    #[must_use]
    pub fn info(&self) -> Info {
        let mut info = Info::default();
        // SAFETY: the place and the length are those of a slice; the call writes to `info` alone, which has the numbers
        // of C in their order.
        let answer =
            unsafe { calls::fontcut_info(self.bytes.as_ptr(), self.bytes.len(), &mut info) };
        assert_eq!(answer.status, DONE, "the font was accepted");
        info
    }
}

/// The version of the library, by its three numbers, of which each may be 255 at most.
///
/// ```
/// assert!((0, 11, 0) <= fontcut::version());
/// ```
#[must_use]
pub fn version() -> (u8, u8, u8) {
    // SAFETY: the call takes nothing.
    let number = unsafe { calls::fontcut_version() };
    let [_, first, second, third] = number.to_be_bytes();
    (first, second, third)
}

/// The join of cuts of one font, of a kind: that font's cut for the characters and the glyphs of all of them, in
/// whatever order they come.
///
/// # Errors
///
/// The first refusal that applies, with the index of the file: 1 to 14 and 17 if it is not an accepted font, 5
/// and 6 for its layout tables, of [`Kind::Layout`] and [`Kind::Variable`] alone, 28 for its `gvar`, of the latter
/// alone, 20 if it is not a cut of the kind, 21 to 23 and 29 if it is not a cut of the font of those before it, 18 if
/// the join would be too large for a file, 24 if there is no file, 16 if out of memory.
pub fn join<I>(kind: Kind, cuts: I) -> Result<Cut, Error>
where
    I: IntoIterator,
    I::Item: AsRef<[u8]>,
{
    let cuts: Vec<I::Item> = cuts.into_iter().collect();
    let files: Vec<Bytes> = cuts.iter().map(|cut| bytes_of(cut.as_ref())).collect();
    let room = files
        .iter()
        .fold(4096, |room: usize, file| room.saturating_add(file.length));
    // SAFETY: each place and length is that of a slice of `cuts`, which lives until the call has ended; the call writes
    // to its room alone, which is a vector's own, and to the front of it as many bytes as it says.
    let made = unsafe {
        filled(room, |out, room| {
            calls::fontcut_join(kind as u32, files.as_ptr(), files.len(), out, room)
        })
    };
    made.map(|bytes| Cut::new(kind, bytes))
        .map_err(Error::of_several_files)
}

/// The cuts of these sizes, which lie end to end.
fn split(kind: Kind, sizes: Vec<u64>, made: &[u8]) -> Vec<Cut> {
    let mut rest = made;
    let cuts = sizes.into_iter().map(|size| {
        let (cut, others) = rest.split_at(length(size));
        rest = others;
        Cut::new(kind, cut.to_vec())
    });
    cuts.collect()
}

fn bytes_of(file: &[u8]) -> Bytes {
    Bytes {
        at: file.as_ptr(),
        length: file.len(),
    }
}

fn done(answer: Answer) -> Result<Answer, Error> {
    if answer.status == DONE {
        Ok(answer)
    } else {
        Err(Error::of_one_file(answer))
    }
}
