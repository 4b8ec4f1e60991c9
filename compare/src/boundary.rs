//! The entry points of libtisarqluk.a, called through C's interface.

use crate::entry::{Answer, EntryPoints, Opening};

extern "C" {
    fn tq_free_record_bytes() -> usize;
    fn tq_paced_record_bytes() -> usize;
    fn tq_aes128(
        key: *const u8,
        key_len: usize,
        input: *const u8,
        in_len: usize,
        output: *mut u8,
        out_len: usize,
    ) -> u32;
    fn tq_free_open(
        record: *mut u8,
        record_len: usize,
        key: *const u8,
        key_len: usize,
        iv: *const u8,
        iv_len: usize,
        pattern: u8,
        l: u64,
        direction: u64,
    ) -> u32;
    fn tq_free_run(
        record: *mut u8,
        record_len: usize,
        bits: u64,
        input: *const u8,
        in_len: usize,
        output: *mut u8,
        out_len: usize,
    ) -> u32;
    fn tq_paced_open(
        record: *mut u8,
        record_len: usize,
        key: *const u8,
        key_len: usize,
        iv: *const u8,
        iv_len: usize,
        pattern: u8,
        l: u64,
        direction: u64,
        d: u64,
    ) -> u32;
    fn tq_paced_tick(
        record: *mut u8,
        record_len: usize,
        input: *const u8,
        in_len: usize,
        output: *mut u8,
        out_len: usize,
    ) -> Answer;
    fn tq_paced_close(
        record: *mut u8,
        record_len: usize,
        output: *mut u8,
        out_len: usize,
    ) -> Answer;
}

/// The library. Each call is safe: a slice's pointer is good for its length, and
/// no two of the slices overlap, since those written to are borrowed alone.
pub struct Library;

impl EntryPoints for Library {
    fn free_record_bytes(&self) -> usize {
        unsafe { tq_free_record_bytes() }
    }

    fn paced_record_bytes(&self) -> usize {
        unsafe { tq_paced_record_bytes() }
    }

    fn aes128(&self, key: &[u8], input: &[u8], output: &mut [u8]) -> u32 {
        unsafe {
            tq_aes128(
                key.as_ptr(),
                key.len(),
                input.as_ptr(),
                input.len(),
                output.as_mut_ptr(),
                output.len(),
            )
        }
    }

    fn free_open(&self, record: &mut [u8], opening: &Opening) -> u32 {
        unsafe {
            tq_free_open(
                record.as_mut_ptr(),
                record.len(),
                opening.key.as_ptr(),
                opening.key.len(),
                opening.iv.as_ptr(),
                opening.iv.len(),
                opening.pattern,
                opening.l,
                opening.direction,
            )
        }
    }

    fn free_run(&self, record: &mut [u8], bits: u64, input: &[u8], output: &mut [u8]) -> u32 {
        unsafe {
            tq_free_run(
                record.as_mut_ptr(),
                record.len(),
                bits,
                input.as_ptr(),
                input.len(),
                output.as_mut_ptr(),
                output.len(),
            )
        }
    }

    fn paced_open(&self, record: &mut [u8], opening: &Opening, d: u64) -> u32 {
        unsafe {
            tq_paced_open(
                record.as_mut_ptr(),
                record.len(),
                opening.key.as_ptr(),
                opening.key.len(),
                opening.iv.as_ptr(),
                opening.iv.len(),
                opening.pattern,
                opening.l,
                opening.direction,
                d,
            )
        }
    }

    fn paced_tick(&self, record: &mut [u8], input: &[u8], output: &mut [u8]) -> Answer {
        unsafe {
            tq_paced_tick(
                record.as_mut_ptr(),
                record.len(),
                input.as_ptr(),
                input.len(),
                output.as_mut_ptr(),
                output.len(),
            )
        }
    }

    fn paced_close(&self, record: &mut [u8], output: &mut [u8]) -> Answer {
        unsafe {
            tq_paced_close(record.as_mut_ptr(), record.len(), output.as_mut_ptr(), output.len())
        }
    }
}
