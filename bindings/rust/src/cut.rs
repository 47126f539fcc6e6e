//! Cuts that this crate has made.
use crate::{Font, Kind};
use std::ops::Deref;

/// A cut of a font, or a join of cuts. It is the bytes of a font file:
///
/// ```
/// # fn main() -> Result<(), Box<dyn std::error::Error>> {
/// # let path = "/usr/share/fonts/truetype/dejavu/DejaVuSans.ttf";
/// # let file = match std::fs::read(path) { Ok(file) => file, Err(_) => return Ok(()) };
/// use fontcut::{Cut, Font, Kind};
///
/// let font = Font::new(&file)?;
/// let cut: Cut = font.cut(Kind::Lean, &"Hello".chars().collect())?;
/// assert!(cut.len() < font.bytes().len());
/// assert!(cut.font().belongs_to(cut.kind(), &font)?);
/// # Ok(())
/// # }
/// ```
#[derive(Clone, Debug, PartialEq, Eq, Hash)]
pub struct Cut {
    kind: Kind,
    bytes: Vec<u8>,
}

impl Cut {
    pub(crate) fn new(kind: Kind, bytes: Vec<u8>) -> Cut {
        Cut { kind, bytes }
    }

    /// The kind of cuts that it was asked for.
    #[must_use]
    pub fn kind(&self) -> Kind {
        self.kind
    }

    /// The cut as a font. Every cut is accepted as one, so it is not looked through again.
    #[must_use]
    pub fn font(&self) -> Font<'_> {
        Font { bytes: &self.bytes }
    }

    /// The bytes of the file.
    #[must_use]
    pub fn into_bytes(self) -> Vec<u8> {
        self.bytes
    }
}

impl Deref for Cut {
    type Target = [u8];

    fn deref(&self) -> &[u8] {
        &self.bytes
    }
}

impl AsRef<[u8]> for Cut {
    fn as_ref(&self) -> &[u8] {
        &self.bytes
    }
}

impl From<Cut> for Vec<u8> {
    fn from(cut: Cut) -> Vec<u8> {
        cut.bytes
    }
}
