//! The entry points of libtisarqluk.a, as include/tisarqluk.h declares them.

#[repr(C)]
pub struct Answer {
    pub refusal: u32,
    pub bits: u32,
    pub waiting: u32,
}

extern "C" {
    pub fn tq_aes128(
        key: *const u8,
        key_len: usize,
        input: *const u8,
        in_len: usize,
        output: *mut u8,
        out_len: usize,
    ) -> u32;
    pub fn tq_free_open(
        record: *mut u8,
        record_len: usize,
        key: *const u8,
        key_len: usize,
        iv: *const u8,
        iv_len: usize,
        pattern: u8,
        l: u64,
        direction: u64,
    ) -> u32;
    pub fn tq_free_run(
        record: *mut u8,
        record_len: usize,
        bits: u64,
        input: *const u8,
        in_len: usize,
        output: *mut u8,
        out_len: usize,
    ) -> u32;
    pub fn tq_paced_open(
        record: *mut u8,
        record_len: usize,
        key: *const u8,
        key_len: usize,
        iv: *const u8,
        iv_len: usize,
        pattern: u8,
        l: u64,
        direction: u64,
        d: u64,
    ) -> u32;
    pub fn tq_paced_tick(
        record: *mut u8,
        record_len: usize,
        input: *const u8,
        in_len: usize,
        output: *mut u8,
        out_len: usize,
    ) -> Answer;
    pub fn tq_paced_close(
        record: *mut u8,
        record_len: usize,
        output: *mut u8,
        out_len: usize,
    ) -> Answer;
}

#[cfg(test)]
mod tests {
    use crate::{FREE_RECORD_BYTES, PACED_RECORD_BYTES};

    extern "C" {
        fn tq_free_record_bytes() -> usize;
        fn tq_paced_record_bytes() -> usize;
    }

    #[test]
    fn the_records_have_the_librarys_sizes() {
        assert_eq!(FREE_RECORD_BYTES, unsafe { tq_free_record_bytes() });
        assert_eq!(PACED_RECORD_BYTES, unsafe { tq_paced_record_bytes() });
    }
}
