//! The functions of `include/threshold.h`, with its names and parameters. What Rust knows of the library stands on these declarations.

use std::ffi::c_char;

extern "C" {
    pub fn threshold_from_hex(inputs: u32, digits: *const c_char, length: usize, out: *mut u8, room: usize) -> i64;
    pub fn threshold_from_words(inputs: u32, words: *const u64, count: usize, out: *mut u8, room: usize) -> i64;
    pub fn threshold_from_cares(
        inputs: u32,
        words: *const u64,
        count: usize,
        cares: *const u64,
        care_count: usize,
        out: *mut u8,
        room: usize,
    ) -> i64;
    pub fn threshold_decide(record: *const u8, length: usize, out: *mut u8, room: usize, made: *mut u32) -> i64;
    pub fn threshold_carry_on(record: *const u8, length: usize, budget: u32, out: *mut u8, room: usize, made: *mut u32) -> i64;
    pub fn threshold_fresh(record: *const u8, length: usize, out: *mut u8, room: usize) -> i64;
    pub fn threshold_corrections(record: *const u8, length: usize) -> i64;
    pub fn threshold_find_gate(
        record: *const u8,
        length: usize,
        budget: u32,
        weights: *mut i32,
        room: usize,
        threshold: *mut i32,
        made: *mut u32,
    ) -> i64;
    pub fn threshold_find_witness(record: *const u8, length: usize, budget: u32, counts: *mut u32, room: usize, made: *mut u32) -> i64;
    pub fn threshold_check(record: *const u8, length: usize) -> i64;
    pub fn threshold_check_gate(record: *const u8, length: usize, weights: *const i32, count: usize, threshold: i32) -> i64;
    pub fn threshold_check_witness(record: *const u8, length: usize, counts: *const u32, count: usize) -> i64;
    pub fn threshold_gate(record: *const u8, length: usize, weights: *mut i32, room: usize, threshold: *mut i32) -> i64;
    pub fn threshold_witness(record: *const u8, length: usize, counts: *mut u32, room: usize) -> i64;
    pub fn threshold_from_gate(
        record: *const u8,
        length: usize,
        weights: *const i32,
        count: usize,
        threshold: i32,
        out: *mut u8,
        room: usize,
    ) -> i64;
    pub fn threshold_from_witness(record: *const u8, length: usize, counts: *const u32, count: usize, out: *mut u8, room: usize) -> i64;
    pub fn threshold_kind(record: *const u8, length: usize) -> i64;
    pub fn threshold_kinds(record: *const u8, length: usize, out: *mut u8, room: usize) -> i64;
    pub fn threshold_chow(record: *const u8, length: usize, out: *mut u8, room: usize) -> i64;
    pub fn threshold_value(record: *const u8, length: usize, row: u32) -> i64;
}
