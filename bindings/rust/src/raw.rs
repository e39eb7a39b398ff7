//! The seventeen functions as `include/qcldpc.h` declares them: a slice passes as a pointer, then its length.
//! Nothing is asked of numbers and bytes; each pointer goes with the length of its memory, and memory that is written
//! overlaps no other. A call returns within 1 MiB of stack.

/// The places that `out` needs.
pub const OUT: usize = 32;

/// What a function returns where `out` has fewer, having changed nothing.
pub const NO_ROOM: u64 = u64::MAX;

extern "C" {
    pub fn qcldpc_check(
        plan: *const i16,
        plan_len: usize,
        rows: u64,
        cols: u64,
        lift: u64,
        out: *mut u64,
        out_len: usize,
    ) -> u64;

    pub fn qcldpc_girth(
        plan: *const i16,
        plan_len: usize,
        rows: u64,
        cols: u64,
        lift: u64,
        target: u64,
        out: *mut u64,
        out_len: usize,
    ) -> u64;

    pub fn qcldpc_girth_pairs(
        plan: *const i16,
        plan_len: usize,
        rows: u64,
        cols: u64,
        lift: u64,
        target: u64,
        work: *mut u64,
        work_len: usize,
        out: *mut u64,
        out_len: usize,
    ) -> u64;

    pub fn qcldpc_syndrome(
        plan: *const i16,
        plan_len: usize,
        rows: u64,
        cols: u64,
        lift: u64,
        word: *const u8,
        word_len: usize,
        out: *mut u64,
        out_len: usize,
    ) -> u64;

    pub fn qcldpc_fill(
        plan: *const i16,
        plan_len: usize,
        rows: u64,
        cols: u64,
        lift: u64,
        word: *mut u8,
        word_len: usize,
        out: *mut u64,
        out_len: usize,
    ) -> u64;

    pub fn qcldpc_preview(
        plan: *const i16,
        plan_len: usize,
        rows: u64,
        cols: u64,
        lift: u64,
        word: *const u8,
        word_len: usize,
        out: *mut u64,
        out_len: usize,
    ) -> u64;

    pub fn qcldpc_flip(
        plan: *const i16,
        plan_len: usize,
        rows: u64,
        cols: u64,
        lift: u64,
        word: *mut u8,
        word_len: usize,
        out: *mut u64,
        out_len: usize,
    ) -> u64;

    pub fn qcldpc_count_erasures(word: *const u8, word_len: usize, out: *mut u64, out_len: usize) -> u64;

    pub fn qcldpc_array_table(order: u64, table: *mut i16, table_len: usize, out: *mut u64, out_len: usize) -> u64;

    pub fn qcldpc_cyclic_table(order: u64, table: *mut i16, table_len: usize, out: *mut u64, out_len: usize) -> u64;

    pub fn qcldpc_build(
        order: u64,
        lift: u64,
        table: *const i16,
        table_len: usize,
        mask: *const u8,
        mask_len: usize,
        plan: *mut i16,
        plan_len: usize,
        row_weights: *mut u16,
        row_weights_len: usize,
        col_weights: *mut u16,
        col_weights_len: usize,
        out: *mut u64,
        out_len: usize,
    ) -> u64;

    pub fn qcldpc_steiner(
        order: u64,
        lift: u64,
        voltages: *const i16,
        voltages_len: usize,
        plan: *mut i16,
        plan_len: usize,
        row_weights: *mut u16,
        row_weights_len: usize,
        col_weights: *mut u16,
        col_weights_len: usize,
        out: *mut u64,
        out_len: usize,
    ) -> u64;

    pub fn qcldpc_change(
        plan: *mut i16,
        plan_len: usize,
        rows: u64,
        cols: u64,
        lift: u64,
        row: u64,
        col: u64,
        entry: i16,
        row_weights: *mut u16,
        row_weights_len: usize,
        col_weights: *mut u16,
        col_weights_len: usize,
        out: *mut u64,
        out_len: usize,
    ) -> u64;

    pub fn qcldpc_join(
        first: *const i16,
        first_len: usize,
        rows: u64,
        cols: u64,
        lift: u64,
        second: *const i16,
        second_len: usize,
        rows2: u64,
        cols2: u64,
        lift2: u64,
        joined: *mut i16,
        joined_len: usize,
        out: *mut u64,
        out_len: usize,
    ) -> u64;

    pub fn qcldpc_encode(
        plan: *const i16,
        plan_len: usize,
        rows: u64,
        cols: u64,
        lift: u64,
        data: *const u8,
        data_len: usize,
        word: *mut u8,
        word_len: usize,
        out: *mut u64,
        out_len: usize,
    ) -> u64;

    pub fn qcldpc_alist_write(
        plan: *const i16,
        plan_len: usize,
        rows: u64,
        cols: u64,
        lift: u64,
        row_weights: *const u16,
        row_weights_len: usize,
        col_weights: *const u16,
        col_weights_len: usize,
        text: *mut u8,
        text_len: usize,
        out: *mut u64,
        out_len: usize,
    ) -> u64;

    pub fn qcldpc_alist_compare(
        plan: *const i16,
        plan_len: usize,
        rows: u64,
        cols: u64,
        lift: u64,
        row_weights: *const u16,
        row_weights_len: usize,
        col_weights: *const u16,
        col_weights_len: usize,
        text: *const u8,
        text_len: usize,
        out: *mut u64,
        out_len: usize,
    ) -> u64;
}
