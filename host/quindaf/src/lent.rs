//! The library's functions on lent memory, with Rust's slices for C's pointers
//! and lengths.
//!
//! Each answers any lengths and any bytes with the numbers of
//! `host/include/quindaf.h`. A shared borrow is only read, an exclusive one
//! overlaps nothing: that is all the library asks of its caller.

use crate::raw;

/// The most lines of a TIF or of a station table, and the most open debits.
pub const MOST_LINES: usize = 9_999;

/// One word for each line a TIF may have.
pub type Words = [u64; MOST_LINES];

/// What a call reads, but for its station table.
#[derive(Clone, Copy, Debug)]
pub struct Read<'a> {
    /// The file name of the TIF.
    pub name: &'a [u8],
    /// The reception moment.
    pub received: &'a [u8],
    /// The code card.
    pub card: &'a [u8],
    /// The names received before.
    pub names: &'a [u8],
    /// The agreement book.
    pub book: &'a [u8],
    /// The open debits.
    pub debits: &'a [u8],
    /// The TIF.
    pub tif: &'a [u8],
    /// How many lines there are records for.
    pub room: usize,
}

/// What a call may write.
#[derive(Debug)]
pub struct Written<'a> {
    /// One mark for each open debit.
    pub marks: &'a mut [u8],
    /// The words of the lines.
    pub words: &'a mut Words,
    /// The output, whose front becomes the TIC.
    pub out: &'a mut [u8],
    /// The nine numbers of the summary.
    pub summary: &'a mut [u64; 9],
}

/// A function of the library on what is read and written, its further arguments
/// standing behind the TIF.
macro_rules! judged_by {
    ($function:path, $read:ident, $written:ident $(, $behind_tif:expr)*) => {
        $function(
            $read.name.as_ptr(),
            $read.name.len(),
            $read.received.as_ptr(),
            $read.received.len(),
            $read.card.as_ptr(),
            $read.card.len(),
            $read.names.as_ptr(),
            $read.names.len(),
            $read.book.as_ptr(),
            $read.book.len(),
            $read.debits.as_ptr(),
            $read.debits.len(),
            $written.marks.as_mut_ptr(),
            $written.marks.len(),
            $read.tif.as_ptr(),
            $read.tif.len(),
            $($behind_tif,)*
            $read.room,
            $written.words.as_mut_ptr(),
            $written.out.as_mut_ptr(),
            $written.out.len(),
            $written.summary.as_mut_ptr(),
        )
    };
}

/// Judges a TIF with no station table: 0, or the call number 1 to 7 with nothing
/// written.
pub fn judge(read: Read, written: Written) -> u32 {
    // SAFETY: each pointer comes from a borrow that lasts as long as the call, with
    // its own length; the arrays have the lengths of the declaration; what is
    // written is borrowed exclusively, so it overlaps nothing else.
    unsafe { judged_by!(raw::quindaf_judge, read, written) }
}

/// Judges a TIF with a station table, of no bytes where none is lent: 0, or the
/// call number 1 to 8 with nothing written.
pub fn judge_with(read: Read, tst: &[u8], written: Written) -> u32 {
    // SAFETY: as for `judge`.
    unsafe {
        judged_by!(
            raw::quindaf_judge_with,
            read,
            written,
            tst.as_ptr(),
            tst.len()
        )
    }
}

/// Reads a TIC: 0, or 1 to 5 with nothing written.
pub fn read_tic(tic: &[u8], values: &mut [u64; 7]) -> u32 {
    // SAFETY: as for `judge`.
    unsafe { raw::quindaf_read_tic(tic.as_ptr(), tic.len(), values.as_mut_ptr()) }
}

/// Where listed line k and its code begin: 0, or 1 to 6 with nothing written.
pub fn listed(tic: &[u8], k: usize, place: &mut [u64; 2]) -> u32 {
    // SAFETY: as for `judge`.
    unsafe { raw::quindaf_listed(tic.as_ptr(), tic.len(), k, place.as_mut_ptr()) }
}

/// Writes what was read: 0, or 1 to 5 or 107 with nothing written.
pub fn rewrite_tic(tic: &[u8], out: &mut [u8], length: &mut [u64; 1]) -> u32 {
    // SAFETY: as for `judge`.
    unsafe {
        raw::quindaf_rewrite_tic(
            tic.as_ptr(),
            tic.len(),
            out.as_mut_ptr(),
            out.len(),
            length.as_mut_ptr(),
        )
    }
}
