//! Refusals.
use crate::calls::{
    fontcut_refusal_text, Answer, BAD_TEXT, DONE, NOTHING_TO_JOIN, NO_GLYPH, NO_MEMORY, NO_NUMBERS,
};
use crate::Wanted;
use std::fmt;

/// What a refusal is about.
#[derive(Clone, Copy, Debug, PartialEq, Eq, Hash)]
pub enum Argument {
    /// The whole file.
    File,
    /// A table, by its tag.
    Table([u8; 4]),
    /// An index, a glyph or a code point.
    Number(u32),
    /// A size in bytes.
    Size(u64),
}

/// A font, or a list of cuts, is refused.
///
/// ```
/// use fontcut::{Argument, Font};
///
/// let refused = Font::new(b"OTTO\0\0\0\0\0\0\0\0").unwrap_err();
/// assert_eq!((refused.number(), refused.text()), (4, "not TrueType"));
/// assert_eq!((refused.argument(), refused.file()), (Argument::File, None));
/// ```
#[derive(Clone, Debug, PartialEq, Eq, Hash)]
pub struct Error {
    number: u32,
    text: String,
    argument: Argument,
    file: Option<usize>,
}

impl Error {
    /// The number of the refusal, as `fontcut` prints it and docs/FORMAT.md lists it; or 102 or 104, if glyphs are
    /// wanted that the font or the kind of cuts does not have; or 106, if a word of a list names no range.
    #[must_use]
    pub fn number(&self) -> u32 {
        self.number
    }

    /// Its text, such as `bad loca at 7`.
    #[must_use]
    pub fn text(&self) -> &str {
        &self.text
    }

    /// What it is about.
    #[must_use]
    pub fn argument(&self) -> Argument {
        self.argument
    }

    /// The index, from 0, of the file that is refused, if several were given.
    #[must_use]
    pub fn file(&self) -> Option<usize> {
        self.file
    }

    pub(crate) fn of_one_file(answer: Answer) -> Error {
        Error {
            number: answer.status,
            text: text_of(answer),
            argument: argument_of(answer),
            file: None,
        }
    }

    /// The error of a call for these sets of wanted characters and glyphs.
    pub(crate) fn of_glyphs<'s>(
        answer: Answer,
        sets: impl IntoIterator<Item = &'s Wanted>,
    ) -> Error {
        let set = usize::try_from(answer.step)
            .ok()
            .and_then(|step| sets.into_iter().nth(step));
        let glyph = set.and_then(|set| set.glyphs.get(answer.detail as usize));
        match (answer.status, glyph) {
            (NO_GLYPH, Some(&glyph)) => {
                Error::of_call(answer, format!("no glyph {glyph}"), u32::from(glyph).into())
            }
            (NO_NUMBERS, _) => {
                Error::of_call(answer, "no glyphs by number in full cuts".into(), None)
            }
            _ => Error::of_one_file(answer),
        }
    }

    /// The error of a call that reads a list.
    pub(crate) fn of_list(answer: Answer, list: &str) -> Error {
        let rest = list.get(answer.detail as usize..).unwrap_or_default();
        let word = rest.split([' ', '\t', '\r', '\n', ',', ';', '#']).next();
        match (answer.status, word) {
            (BAD_TEXT, Some(word)) => {
                Error::of_call(answer, format!("bad word {word}"), Some(answer.detail))
            }
            _ => Error::of_one_file(answer),
        }
    }

    /// The error of a call whose answer is no refusal, about a number.
    fn of_call(answer: Answer, text: String, number: Option<u32>) -> Error {
        Error {
            number: answer.status,
            text,
            argument: number.map_or(Argument::File, Argument::Number),
            file: None,
        }
    }

    pub(crate) fn of_several_files(answer: Answer) -> Error {
        let is_of_file = !matches!(answer.status, NO_MEMORY | NOTHING_TO_JOIN);
        let file = usize::try_from(answer.step).ok().filter(|_| is_of_file);
        Error {
            file,
            ..Error::of_one_file(answer)
        }
    }
}

fn argument_of(answer: Answer) -> Argument {
    match answer.status {
        // Written by tools/write_refusals from include/refusals.txt:
        5 | 6 | 7 | 21 | 29 => Argument::Table(answer.detail.to_be_bytes()),
        12 | 15 | 17 | 22 | 23 => Argument::Number(answer.detail),
        18 => Argument::Size(answer.size),
        // End of what tools/write_refusals writes.
        _ => Argument::File,
    }
}

/// The text of a refusal, which has 64 bytes at most.
fn text_of(answer: Answer) -> String {
    let mut text = [0; 64];
    // SAFETY: the call writes to the array alone, and to its front as many bytes as it says.
    let told = unsafe { fontcut_refusal_text(answer, text.as_mut_ptr(), text.len()) };
    let length = if told.status == DONE {
        usize::try_from(told.size).unwrap_or(0).min(text.len())
    } else {
        0
    };
    if length == 0 {
        return "no memory".to_owned();
    }
    String::from_utf8_lossy(&text[..length]).into_owned()
}

impl fmt::Display for Error {
    fn fmt(&self, f: &mut fmt::Formatter<'_>) -> fmt::Result {
        match self.file {
            Some(file) => write!(f, "file {}: {}", file.saturating_add(1), self.text),
            None => f.write_str(&self.text),
        }
    }
}

impl std::error::Error for Error {}
