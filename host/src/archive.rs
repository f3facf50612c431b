//! The calls of the archive that is linked, `libchelbugan.a`, as include/chelbugan.h has them. [`crate::calls`] makes them
//! safe.

extern "C" {
    pub fn chelbugan_version() -> u64;

    pub fn chelbugan_judge_section(
        library: *const u8,
        library_len: usize,
        section: *const u8,
        section_len: usize,
        rows: *mut u16,
        rows_len: usize,
        shared: *mut u16,
        shared_len: usize,
        codes: *mut u16,
        codes_len: usize,
        answer: *mut u64,
    ) -> u64;

    pub fn chelbugan_ask_type(
        library: *const u8,
        library_len: usize,
        section: *const u8,
        section_len: usize,
        number: u64,
        rows: *mut u16,
        rows_len: usize,
        shared: *mut u16,
        shared_len: usize,
        codes: *mut u16,
        codes_len: usize,
        answer: *mut u64,
    ) -> u64;

    pub fn chelbugan_judge_body(
        library: *const u8,
        library_len: usize,
        section: *const u8,
        section_len: usize,
        body: *const u8,
        body_len: usize,
        number: u64,
        rows: *mut u16,
        rows_len: usize,
        shared: *mut u16,
        shared_len: usize,
        codes: *mut u16,
        codes_len: usize,
        work: *mut u32,
        work_len: usize,
        answer: *mut u64,
    ) -> u64;

    pub fn chelbugan_try_run(
        library: *const u8,
        library_len: usize,
        section: *const u8,
        section_len: usize,
        body: *const u8,
        body_len: usize,
        number: u64,
        budget: u64,
        rows: *mut u16,
        rows_len: usize,
        shared: *mut u16,
        shared_len: usize,
        codes: *mut u16,
        codes_len: usize,
        work: *mut u32,
        work_len: usize,
        ends: *mut u16,
        ends_len: usize,
        counts: *mut u64,
        counts_len: usize,
        objects: *mut u16,
        objects_len: usize,
        cells: *mut u64,
        cells_len: usize,
        locals: *mut u64,
        locals_len: usize,
        operands: *mut u64,
        operands_len: usize,
        blocks: *mut u16,
        blocks_len: usize,
        answer: *mut u64,
    ) -> u64;
}
