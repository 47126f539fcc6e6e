//! The calls of `fontcut.h`, as the header declares them.
use crate::numbers::{Info, Losses, Metric};
use crate::{Kind, Ranges};
use std::marker::PhantomData;

#[repr(C)]
#[derive(Clone, Copy, Debug, PartialEq, Eq)]
pub(crate) struct Range {
    pub(crate) first: u32,
    pub(crate) last: u32,
}

#[repr(C)]
#[derive(Clone, Copy)]
pub(crate) struct Bytes {
    pub(crate) at: *const u8,
    pub(crate) length: usize,
}

/// What is wanted of a font, as C takes it. It points to the lists that it is made of.
#[repr(C)]
pub(crate) struct Request<'l> {
    struct_size: usize,
    kind: u32,
    flags: u32,
    ranges: *const Range,
    range_count: usize,
    glyphs: *const u16,
    glyph_count: usize,
    lists: PhantomData<&'l [u16]>,
}

/// Layout and variable cuts also have what `GSUB` may put.
pub(crate) const CLOSES: u32 = 1;
/// The font was accepted before.
pub(crate) const CHECKED: u32 = 2;

impl<'l> Request<'l> {
    /// The request for the cut of an accepted font.
    pub(crate) fn new(kind: Kind, flags: u32, codes: &'l Ranges, glyphs: &'l [u16]) -> Request<'l> {
        let ranges = codes.as_slice();
        Request {
            struct_size: std::mem::size_of::<Request>(),
            kind: kind as u32,
            flags: flags | CHECKED,
            ranges: ranges.as_ptr(),
            range_count: ranges.len(),
            glyphs: glyphs.as_ptr(),
            glyph_count: glyphs.len(),
            lists: PhantomData,
        }
    }
}

#[repr(C)]
#[derive(Clone, Copy, Debug)]
pub(crate) struct Answer {
    pub(crate) status: u32,
    pub(crate) detail: u32,
    pub(crate) size: u64,
    pub(crate) step: u64,
}

pub(crate) const DONE: u32 = 0;
// Written by tools/write_refusals from include/refusals.txt:
pub(crate) const NO_MEMORY: u32 = 16;
pub(crate) const NOTHING_TO_JOIN: u32 = 24;
// End of what tools/write_refusals writes.
pub(crate) const SMALL_ROOM: u32 = 100;
pub(crate) const NO_GLYPH: u32 = 102;
pub(crate) const NO_NUMBERS: u32 = 104;
pub(crate) const BAD_TEXT: u32 = 106;

extern "C" {
    pub(crate) fn fontcut_check(font: *const u8, font_length: usize) -> Answer;
    pub(crate) fn fontcut_subset(
        request: *const Request<'_>,
        font: *const u8,
        font_length: usize,
        out: *mut u8,
        room: usize,
    ) -> Answer;
    pub(crate) fn fontcut_subsets(
        requests: *const Request<'_>,
        request_count: usize,
        font: *const u8,
        font_length: usize,
        out: *mut u8,
        room: usize,
        sizes: *mut u64,
        sizes_length: usize,
    ) -> Answer;
    pub(crate) fn fontcut_closure(
        request: *const Request<'_>,
        font: *const u8,
        font_length: usize,
        out: *mut u16,
        room: usize,
    ) -> Answer;
    pub(crate) fn fontcut_lost(
        request: *const Request<'_>,
        font: *const u8,
        font_length: usize,
        losses: *mut Losses,
    ) -> Answer;
    pub(crate) fn fontcut_kept(
        kind: u32,
        font: *const u8,
        font_length: usize,
        out: *mut u16,
        room: usize,
    ) -> Answer;
    pub(crate) fn fontcut_cut_form(kind: u32, font: *const u8, font_length: usize) -> Answer;
    pub(crate) fn fontcut_belongs(
        kind: u32,
        cut: *const u8,
        cut_length: usize,
        font: *const u8,
        font_length: usize,
    ) -> Answer;
    pub(crate) fn fontcut_join(
        kind: u32,
        files: *const Bytes,
        file_count: usize,
        out: *mut u8,
        room: usize,
    ) -> Answer;
    pub(crate) fn fontcut_codes(
        font: *const u8,
        font_length: usize,
        out: *mut Range,
        room: usize,
    ) -> Answer;
    pub(crate) fn fontcut_glyphs(
        flags: u32,
        font: *const u8,
        font_length: usize,
        codes: *const u32,
        code_count: usize,
        out: *mut u16,
        room: usize,
    ) -> Answer;
    pub(crate) fn fontcut_metrics(
        flags: u32,
        font: *const u8,
        font_length: usize,
        glyphs: *const u16,
        glyph_count: usize,
        out: *mut Metric,
        room: usize,
    ) -> Answer;
    pub(crate) fn fontcut_info(font: *const u8, font_length: usize, info: *mut Info) -> Answer;
    pub(crate) fn fontcut_needed(
        text: *const u8,
        text_length: usize,
        out: *mut Range,
        room: usize,
    ) -> Answer;
    pub(crate) fn fontcut_variants(
        flags: u32,
        font: *const u8,
        font_length: usize,
        text: *const u8,
        text_length: usize,
        out: *mut u16,
        room: usize,
    ) -> Answer;
    pub(crate) fn fontcut_ranges(
        list: *const u8,
        list_length: usize,
        out: *mut Range,
        room: usize,
    ) -> Answer;
    pub(crate) fn fontcut_version() -> u32;
    pub(crate) fn fontcut_refusal_text(answer: Answer, out: *mut u8, room: usize) -> Answer;
}

/// An empty vector with room for so many elements, or the answer that it is out of memory. A vector that asks for its
/// room by itself ends the process if it is refused.
fn with_room<T>(room: usize) -> Result<Vec<T>, Answer> {
    let mut out = Vec::new();
    match out.try_reserve_exact(room) {
        Ok(()) => Ok(out),
        Err(_) => Err(Answer {
            status: NO_MEMORY,
            detail: 0,
            size: 0,
            step: 0,
        }),
    }
}

/// Fills a vector by a call that writes to a room and says how much it wrote, or needs.
///
/// # Safety
///
/// Where it is given a place and a room, `call` writes to no more than so many elements from that place on, and
/// if it answers `DONE` it has written the first `size` of them.
pub(crate) unsafe fn filled<T>(
    room: usize,
    call: impl Fn(*mut T, usize) -> Answer,
) -> Result<Vec<T>, Answer> {
    let mut out: Vec<T> = with_room(room)?;
    let mut answer = call(out.as_mut_ptr(), out.capacity());
    if answer.status == SMALL_ROOM {
        out = with_room(length(answer.size))?;
        answer = call(out.as_mut_ptr(), out.capacity());
    }
    if answer.status != DONE {
        return Err(answer);
    }
    // SAFETY: the call has written so many elements, as its caller here promises.
    unsafe { out.set_len(length(answer.size)) };
    Ok(out)
}

/// A size that the library has told, which is never above that of a file.
pub(crate) fn length(size: u64) -> usize {
    usize::try_from(size).expect("a file has fewer than 2^31 bytes")
}

#[cfg(test)]
mod tests {
    use super::*;

    #[test]
    fn room_that_is_refused_is_answered() {
        let small = Answer {
            status: SMALL_ROOM,
            detail: 0,
            size: u64::MAX,
            step: 0,
        };
        for room in [usize::MAX, 1] {
            // SAFETY: the call writes nothing, and does not answer `DONE`.
            let refused = unsafe { filled::<u8>(room, |_, _| small) }.unwrap_err();
            assert_eq!(refused.status, NO_MEMORY);
        }
    }
}
