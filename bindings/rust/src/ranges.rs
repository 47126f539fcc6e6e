//! Sets of code points.
use crate::calls::{filled, fontcut_ranges, Range};
use crate::Error;
use std::fmt;
use std::ops::RangeInclusive;
use std::str::FromStr;

const LAST_CODE: u32 = 0x10_FFFF;

/// A set of code points, as ranges in ascending order of which none touch. It is made of characters or of ranges of
/// them, in any order:
///
/// ```
/// use fontcut::Ranges;
///
/// let letters: Ranges = "Hello".chars().collect();
/// let latin: Ranges = [' '..='~', '\u{A0}'..='\u{FF}'].into_iter().collect();
/// assert_eq!("U+48, U+65, U+6C, U+6F", letters.to_string());
/// assert_eq!("U+20-7E, U+A0-FF", latin.to_string());
/// ```
#[derive(Clone, Debug, Default, PartialEq, Eq)]
pub struct Ranges {
    sorted: Vec<Range>,
}

impl Ranges {
    /// All code points.
    #[must_use]
    pub fn all() -> Ranges {
        Ranges {
            sorted: vec![Range {
                first: 0,
                last: LAST_CODE,
            }],
        }
    }

    /// Adds the code points of a range, also its surrogates where it has them. What lies above U+10FFFF is left out.
    pub fn insert(&mut self, codes: RangeInclusive<u32>) {
        let (first, last) = (*codes.start(), (*codes.end()).min(LAST_CODE));
        if codes.is_empty() || first > last {
            return;
        }
        let begin = self
            .sorted
            .partition_point(|it| it.last.saturating_add(1) < first);
        let end = self
            .sorted
            .partition_point(|it| it.first <= last.saturating_add(1));
        let touched = &self.sorted[begin..end];
        let merged = Range {
            first: touched.first().map_or(first, |it| it.first.min(first)),
            last: touched.last().map_or(last, |it| it.last.max(last)),
        };
        self.sorted.splice(begin..end, [merged]);
    }

    /// The ranges, in ascending order.
    pub fn iter(&self) -> impl Iterator<Item = RangeInclusive<u32>> + '_ {
        self.sorted.iter().map(|it| it.first..=it.last)
    }

    /// Whether a code point is in the set.
    #[must_use]
    pub fn contains(&self, code: u32) -> bool {
        let at = self.sorted.partition_point(|it| it.last < code);
        self.sorted.get(at).map_or(false, |it| it.first <= code)
    }

    pub(crate) fn as_slice(&self) -> &[Range] {
        &self.sorted
    }

    pub(crate) fn from_sorted(sorted: Vec<Range>) -> Ranges {
        Ranges { sorted }
    }
}

impl Extend<RangeInclusive<u32>> for Ranges {
    fn extend<I: IntoIterator<Item = RangeInclusive<u32>>>(&mut self, ranges: I) {
        for range in ranges {
            self.insert(range);
        }
    }
}

impl FromIterator<RangeInclusive<u32>> for Ranges {
    fn from_iter<I: IntoIterator<Item = RangeInclusive<u32>>>(ranges: I) -> Ranges {
        let mut made = Ranges::default();
        made.extend(ranges);
        made
    }
}

impl FromIterator<RangeInclusive<char>> for Ranges {
    fn from_iter<I: IntoIterator<Item = RangeInclusive<char>>>(ranges: I) -> Ranges {
        ranges
            .into_iter()
            .map(|range| u32::from(*range.start())..=u32::from(*range.end()))
            .collect()
    }
}

impl FromIterator<char> for Ranges {
    fn from_iter<I: IntoIterator<Item = char>>(characters: I) -> Ranges {
        let mut codes: Vec<u32> = characters.into_iter().map(u32::from).collect();
        codes.sort_unstable();
        codes.dedup();
        codes.into_iter().map(|code| code..=code).collect()
    }
}

/// Of the words of a list, as the program reads them with its option `--codes-file`.
///
/// # Errors
///
/// 106 if a word names no range, with the index of its first byte, and 16 if out of memory.
///
/// ```
/// use fontcut::{Argument, Ranges};
///
/// let latin: Ranges = "unicode-range: U+20-7E, u+00??;".parse()?;
/// assert_eq!("U+0-FF", latin.to_string());
/// let refused = "41, 4?1".parse::<Ranges>().unwrap_err();
/// assert_eq!((refused.number(), refused.text()), (106, "bad word 4?1"));
/// assert_eq!(refused.argument(), Argument::Number(4));
/// # Ok::<(), fontcut::Error>(())
/// ```
impl FromStr for Ranges {
    type Err = Error;

    fn from_str(list: &str) -> Result<Ranges, Error> {
        // SAFETY: the place and the length are those of a text; the call writes to its room alone, which is a vector's
        // own, and to the front of it as many ranges as it says.
        let read = unsafe {
            filled(64, |out, room| {
                fontcut_ranges(list.as_ptr(), list.len(), out, room)
            })
        };
        read.map(Ranges::from_sorted)
            .map_err(|answer| Error::of_list(answer, list))
    }
}

/// As range words, which the program reads with its option `--codes-file`, and CSS as a `unicode-range`.
impl fmt::Display for Ranges {
    fn fmt(&self, f: &mut fmt::Formatter<'_>) -> fmt::Result {
        for (at, range) in self.sorted.iter().enumerate() {
            let comma = if at == 0 { "" } else { ", " };
            if range.first == range.last {
                write!(f, "{comma}U+{:X}", range.first)?;
            } else {
                write!(f, "{comma}U+{:X}-{:X}", range.first, range.last)?;
            }
        }
        Ok(())
    }
}
