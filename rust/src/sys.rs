//! The C surface as it stands in `include/ghindulza.h`, where each function is
//! described. Every function returns the refusal's number, 0 for accepted.
//!
//! A length of 0 may come with any pointer; lent areas never overlap.

unsafe extern "C" {
    pub fn ghindulza_run(
        trace: *const u8,
        trace_len: usize,
        report: *mut u32,
        report_len: usize,
        record: *mut u32,
    ) -> u32;

    pub fn ghindulza_read_setup(
        bytes: *const u8,
        len: usize,
        fields: *mut [u32; 5],
        starts: *mut [u8; 32],
        rest: *mut [u64; 2],
    ) -> u32;

    pub fn ghindulza_read_step(bytes: *const u8, len: usize, fields: *mut [u32; 3]) -> u32;

    pub fn ghindulza_write_setup(
        buffer: *mut u8,
        len: usize,
        kind: u32,
        size: u32,
        delta: u16,
        starts: *const u8,
        n: usize,
        length: *mut u64,
    ) -> u32;

    pub fn ghindulza_write_step(
        buffer: *mut u8,
        len: usize,
        process: u32,
        event: u32,
        tick: u32,
        length: *mut u64,
    ) -> u32;

    pub fn ghindulza_bank_fresh(values: *mut [u32; 8], deadlines: *mut [u32; 256], last: *mut u32);

    pub fn ghindulza_bank_read(
        values: *const [u32; 8],
        deadlines: *mut [u32; 256],
        last: *mut u32,
        process: u32,
        reg: u32,
        tick: u32,
        wait: u32,
        value: *mut u32,
    ) -> u32;

    pub fn ghindulza_bank_write(
        values: *mut [u32; 8],
        deadlines: *mut [u32; 256],
        last: *mut u32,
        process: u32,
        reg: u32,
        tick: u32,
        value: u32,
        answer: *mut u32,
    ) -> u32;
}
