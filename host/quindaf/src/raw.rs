//! The functions of the static library, as `host/include/quindaf.h` declares them.

extern "C" {
    pub fn quindaf_judge(
        name: *const u8,
        name_length: usize,
        received: *const u8,
        received_length: usize,
        card: *const u8,
        card_length: usize,
        names: *const u8,
        names_length: usize,
        book: *const u8,
        book_length: usize,
        debits: *const u8,
        debits_length: usize,
        marks: *mut u8,
        marks_length: usize,
        tif: *const u8,
        tif_length: usize,
        room: usize,
        words: *mut u64,
        out: *mut u8,
        out_length: usize,
        summary: *mut u64,
    ) -> u32;

    pub fn quindaf_judge_with(
        name: *const u8,
        name_length: usize,
        received: *const u8,
        received_length: usize,
        card: *const u8,
        card_length: usize,
        names: *const u8,
        names_length: usize,
        book: *const u8,
        book_length: usize,
        debits: *const u8,
        debits_length: usize,
        marks: *mut u8,
        marks_length: usize,
        tif: *const u8,
        tif_length: usize,
        tst: *const u8,
        tst_length: usize,
        room: usize,
        words: *mut u64,
        out: *mut u8,
        out_length: usize,
        summary: *mut u64,
    ) -> u32;

    pub fn quindaf_read_tic(tic: *const u8, tic_length: usize, values: *mut u64) -> u32;

    pub fn quindaf_listed(tic: *const u8, tic_length: usize, k: usize, place: *mut u64) -> u32;

    pub fn quindaf_rewrite_tic(
        tic: *const u8,
        tic_length: usize,
        out: *mut u8,
        out_length: usize,
        length: *mut u64,
    ) -> u32;
}
