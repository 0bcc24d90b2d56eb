//! The calls on a store that do not test the region, as Rust declares them.
//!
//! cjumbradi_known.h says what they promise, and when. A program takes this file as a module, beside
//! cjumbradi.rs, and has `libknown.a` where its linker looks.
#![allow(dead_code)] // a program need not make every call

#[link(name = "known", kind = "static")]
extern "C" {
    pub fn cjumbradi_known_insert(
        region: *mut u8,
        region_len: usize,
        filter: *const u8,
        filter_len: usize,
        value: u32,
        answer: *mut u64,
    ) -> u64;
    pub fn cjumbradi_known_remove(
        region: *mut u8,
        region_len: usize,
        filter: *const u8,
        filter_len: usize,
        value: u32,
        answer: *mut u64,
    ) -> u64;
    pub fn cjumbradi_known_is_match(
        region: *const u8,
        region_len: usize,
        name: *const u8,
        name_len: usize,
        yes: *mut u64,
    ) -> u64;
    pub fn cjumbradi_known_listing(
        region: *const u8,
        region_len: usize,
        name: *const u8,
        name_len: usize,
        out: *mut u8,
        out_len: usize,
        bytes: *mut u64,
        records: *mut u64,
    ) -> u64;

    pub fn cjumbradi_known_set(
        region: *mut u8,
        region_len: usize,
        name: *const u8,
        name_len: usize,
        payload: u64,
        handle: u32,
        expires: u64,
        moment: u64,
        answer: *mut u64,
    ) -> u64;
    pub fn cjumbradi_known_lookup(
        region: *const u8,
        region_len: usize,
        filter: *const u8,
        filter_len: usize,
        clock: u64,
        out: *mut u8,
        out_len: usize,
        bytes: *mut u64,
        records: *mut u64,
    ) -> u64;
    pub fn cjumbradi_known_page(
        region: *const u8,
        region_len: usize,
        clock: u64,
        offset: u64,
        limit: u64,
        out: *mut u8,
        out_len: usize,
        bytes: *mut u64,
        records: *mut u64,
        more: *mut u64,
    ) -> u64;
    pub fn cjumbradi_known_sweep(
        region: *mut u8,
        region_len: usize,
        clock: u64,
        removed: *mut u64,
    ) -> u64;
}
