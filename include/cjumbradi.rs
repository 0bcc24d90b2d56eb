//! The calls of the library as Rust declares them, and its numbers.
//!
//! What each call takes, answers and refuses is said in cjumbradi.h, under the same name. A program takes
//! this file as a module, and has `libcjumbradi.a` where its linker looks.
//!
//! A call is safe where each pointer with its length is that of a slice (that of an empty slice is not
//! null, as the calls want), where what may be written overlaps nothing else, and where each number that
//! is handed back has a variable of its own.
#![allow(dead_code)] // a program need not make every call

/// The refusals: a call returns one of these numbers, or 0.
pub mod refusal {
    /// A name or a filter of no bytes.
    pub const EMPTY: u64 = 1;
    /// Over 65,535 bytes.
    pub const TOO_LONG: u64 = 2;
    /// Not UTF-8 by RFC 3629.
    pub const NOT_UTF8: u64 = 3;
    /// A byte 0.
    pub const HAS_NUL: u64 = 4;
    /// '+' or '#' in a name.
    pub const HAS_WILDCARD: u64 = 5;
    /// '+' or '#' beside other bytes; the place is the level, from 0.
    pub const BAD_LEVEL: u64 = 6;
    /// '#' before the last level; the place is the level, from 0.
    pub const HASH_NOT_LAST: u64 = 7;
    /// `$share/`: no '/' after the group, or nothing after it.
    pub const NO_INNER: u64 = 8;
    /// `$share/`: '+' or '#' in the group.
    pub const BAD_GROUP: u64 = 9;
    /// A capacity out of range, or the region too short.
    pub const BAD_SIZE: u64 = 10;
    /// The region is no store of the call's kind.
    pub const NOT_A_STORE: u64 = 11;
    /// Over 128 levels.
    pub const TOO_DEEP: u64 = 12;
    /// There is no room for its nodes.
    pub const NODES_FULL: u64 = 13;
    /// There is no room for one pair more.
    pub const PAIRS_FULL: u64 = 14;
    /// There is no room for its text.
    pub const TEXT_FULL: u64 = 15;
    /// The buffer is too short; the place is the bytes that are needed.
    pub const SHORT_ROOM: u64 = 16;
}

/// What a level is, as `cjumbradi_level_kind` tells it.
pub mod kind {
    /// There is no such level.
    pub const NONE: u64 = 0;
    pub const NORMAL: u64 = 1;
    /// Its first byte is '$'.
    pub const METADATA: u64 = 2;
    pub const BLANK: u64 = 3;
    /// '+'
    pub const SINGLE_WILDCARD: u64 = 4;
    /// '#'
    pub const MULTI_WILDCARD: u64 = 5;
}

/// What became of a name, as `cjumbradi_set` tells it.
pub mod set {
    pub const NEW: u64 = 1;
    pub const REPLACED: u64 = 2;
    pub const ERASED: u64 = 3;
    pub const NOT_HELD: u64 = 4;
}

/// A call that takes one text and hands back one number.
pub type TextCall = unsafe extern "C" fn(*const u8, usize, *mut u64) -> u64;

/// A call that makes a region an empty store.
pub type OpenCall = unsafe extern "C" fn(*mut u8, usize, u64, u64, u64, *mut u64) -> u64;

/// A call that changes the values of a filter.
pub type ChangeCall = unsafe extern "C" fn(*mut u8, usize, *const u8, usize, u32, *mut u64) -> u64;

/// A call that asks about a name.
pub type AskCall = unsafe extern "C" fn(*const u8, usize, *const u8, usize, *mut u64) -> u64;

/// A call that lists the filters for a name.
pub type ListingCall = unsafe extern "C" fn(
    *const u8,
    usize,
    *const u8,
    usize,
    *mut u8,
    usize,
    *mut u64,
    *mut u64,
) -> u64;

/// A call that sets a name or erases it.
pub type SetCall =
    unsafe extern "C" fn(*mut u8, usize, *const u8, usize, u64, u32, u64, u64, *mut u64) -> u64;

/// A call that looks up a filter.
pub type LookupCall = unsafe extern "C" fn(
    *const u8,
    usize,
    *const u8,
    usize,
    u64,
    *mut u8,
    usize,
    *mut u64,
    *mut u64,
) -> u64;

/// A call that gives a page of the names.
pub type PageCall = unsafe extern "C" fn(
    *const u8,
    usize,
    u64,
    u64,
    u64,
    *mut u8,
    usize,
    *mut u64,
    *mut u64,
    *mut u64,
) -> u64;

/// A call that sweeps.
pub type SweepCall = unsafe extern "C" fn(*mut u8, usize, u64, *mut u64) -> u64;

/// A call that tells a size of a store.
pub type SizeCall = unsafe extern "C" fn(*const u8, usize, *mut u64) -> u64;

#[link(name = "cjumbradi", kind = "static")]
extern "C" {
    pub fn cjumbradi_parse(text: *const u8, text_len: usize, levels: *mut u64) -> u64;
    pub fn cjumbradi_level_kind(text: *const u8, text_len: usize, k: u64, kind: *mut u64) -> u64;
    pub fn cjumbradi_level_part(
        text: *const u8,
        text_len: usize,
        k: u64,
        start: *mut u64,
        length: *mut u64,
    ) -> u64;

    pub fn cjumbradi_is_valid_topic_name(text: *const u8, text_len: usize, place: *mut u64) -> u64;
    pub fn cjumbradi_is_valid_topic_filter(
        text: *const u8,
        text_len: usize,
        place: *mut u64,
    ) -> u64;
    pub fn cjumbradi_is_valid_subscription_filter(
        text: *const u8,
        text_len: usize,
        place: *mut u64,
    ) -> u64;

    pub fn cjumbradi_is_shared_subscription(text: *const u8, text_len: usize, yes: *mut u64)
        -> u64;
    pub fn cjumbradi_is_limit_subscription(text: *const u8, text_len: usize, yes: *mut u64) -> u64;
    pub fn cjumbradi_is_exclusive_subscription(
        text: *const u8,
        text_len: usize,
        yes: *mut u64,
    ) -> u64;

    pub fn cjumbradi_matches(
        filter: *const u8,
        filter_len: usize,
        name: *const u8,
        name_len: usize,
        yes: *mut u64,
    ) -> u64;

    pub fn cjumbradi_needed(nodes: u64, pairs: u64, cells: u64, bytes: *mut u64) -> u64;
    pub fn cjumbradi_open_subscriptions(
        region: *mut u8,
        region_len: usize,
        nodes: u64,
        pairs: u64,
        cells: u64,
        place: *mut u64,
    ) -> u64;
    pub fn cjumbradi_open_retained(
        region: *mut u8,
        region_len: usize,
        nodes: u64,
        pairs: u64,
        cells: u64,
        place: *mut u64,
    ) -> u64;

    pub fn cjumbradi_insert(
        region: *mut u8,
        region_len: usize,
        filter: *const u8,
        filter_len: usize,
        value: u32,
        answer: *mut u64,
    ) -> u64;
    pub fn cjumbradi_remove(
        region: *mut u8,
        region_len: usize,
        filter: *const u8,
        filter_len: usize,
        value: u32,
        answer: *mut u64,
    ) -> u64;
    pub fn cjumbradi_is_match(
        region: *const u8,
        region_len: usize,
        name: *const u8,
        name_len: usize,
        yes: *mut u64,
    ) -> u64;
    pub fn cjumbradi_listing(
        region: *const u8,
        region_len: usize,
        name: *const u8,
        name_len: usize,
        out: *mut u8,
        out_len: usize,
        bytes: *mut u64,
        records: *mut u64,
    ) -> u64;
    pub fn cjumbradi_nodes_size(region: *const u8, region_len: usize, nodes: *mut u64) -> u64;
    pub fn cjumbradi_values_size(region: *const u8, region_len: usize, values: *mut u64) -> u64;

    pub fn cjumbradi_set(
        region: *mut u8,
        region_len: usize,
        name: *const u8,
        name_len: usize,
        payload: u64,
        handle: u32,
        expires: u64,
        moment: u64,
        answer: *mut u64,
    ) -> u64;
    pub fn cjumbradi_lookup(
        region: *const u8,
        region_len: usize,
        filter: *const u8,
        filter_len: usize,
        clock: u64,
        out: *mut u8,
        out_len: usize,
        bytes: *mut u64,
        records: *mut u64,
    ) -> u64;
    pub fn cjumbradi_page(
        region: *const u8,
        region_len: usize,
        clock: u64,
        offset: u64,
        limit: u64,
        out: *mut u8,
        out_len: usize,
        bytes: *mut u64,
        records: *mut u64,
        more: *mut u64,
    ) -> u64;
    pub fn cjumbradi_sweep(
        region: *mut u8,
        region_len: usize,
        clock: u64,
        removed: *mut u64,
    ) -> u64;
    pub fn cjumbradi_count(region: *const u8, region_len: usize, names: *mut u64) -> u64;
}
