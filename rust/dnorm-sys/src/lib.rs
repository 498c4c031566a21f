//! The functions of libdnorm, as `dnorm.h` declares them. Its comments say what each does, and which rules a caller
//! keeps. The crate `dnorm` keeps them.
#![no_std]
#![allow(non_camel_case_types)]

use core::ffi::c_void;

pub const DNORM_ABI: u32 = 3;

/// Owns nothing, a reader, an instance, a refusal, a canonical text, or a reader of arc lines.
#[repr(C)]
#[derive(Debug)]
pub struct dnorm {
    pub work: *mut c_void,
    pub full: bool,
}

/// A `dnorm` that owns nothing.
pub const DNORM_NONE: dnorm = dnorm {
    work: core::ptr::null_mut(),
    full: false,
};

pub const DNORM_FINE: u8 = 0;
pub const DNORM_BAD_LINE: u8 = 1;
pub const DNORM_EARLY_LINE: u8 = 2;
pub const DNORM_SECOND_PROBLEM: u8 = 3;
pub const DNORM_UNKNOWN_PROBLEM: u8 = 4;
pub const DNORM_WRONG_LINE: u8 = 5;
pub const DNORM_LATE_NODE: u8 = 6;
pub const DNORM_TOO_MANY_LINES: u8 = 7;
pub const DNORM_FIELD_COUNT: u8 = 8;
pub const DNORM_NOT_A_NUMBER: u8 = 9;
pub const DNORM_OUT_OF_RANGE: u8 = 10;
pub const DNORM_NEGATIVE: u8 = 11;
pub const DNORM_BAD_TERMINAL: u8 = 12;
pub const DNORM_NODE_OUT_OF_RANGE: u8 = 13;
pub const DNORM_REPEATED_NODE: u8 = 14;
pub const DNORM_SAME_TERMINAL: u8 = 15;
pub const DNORM_LOW_ABOVE_CAP: u8 = 16;
pub const DNORM_SUM_TOO_LARGE: u8 = 17;
pub const DNORM_NO_PROBLEM: u8 = 18;
pub const DNORM_MISSING_TERMINAL: u8 = 19;
pub const DNORM_TOO_FEW_LINES: u8 = 20;
pub const DNORM_TOO_LONG: u8 = 21;
pub const DNORM_MEMORY: u8 = 30;
pub const DNORM_COUNT_TOO_LARGE: u8 = 34;
pub const DNORM_WRONG_CALL: u8 = 40;
pub const DNORM_NOT_A_FLOW: u8 = 42;

pub const DNORM_NO_PLACE: u8 = 0;
pub const DNORM_AT_LINE: u8 = 1;
pub const DNORM_AT_END: u8 = 2;

#[repr(C)]
#[derive(Clone, Copy, Debug, PartialEq, Eq)]
pub struct dnorm_status {
    pub code: u8,
    pub place: u8,
    pub line: u64,
}

#[repr(C)]
#[derive(Clone, Copy, Debug, PartialEq, Eq)]
pub struct dnorm_count {
    pub count: usize,
    pub code: u8,
}

pub const DNORM_NO_KIND: u8 = 0;
pub const DNORM_MIN: u8 = 1;
pub const DNORM_MAX: u8 = 2;
pub const DNORM_SP: u8 = 3;
pub const DNORM_SS: u8 = 4;
pub const DNORM_P2P: u8 = 5;
pub const DNORM_CO: u8 = 6;

#[repr(C)]
#[derive(Clone, Copy, Debug, PartialEq, Eq)]
pub struct dnorm_summary {
    pub kind: u8,
    pub nodes: i64,
    pub lines: i64,
    pub pairs: u64,
    pub items: u64,
}

#[repr(C)]
#[derive(Clone, Copy, Debug, Default, PartialEq, Eq)]
pub struct dnorm_arc {
    pub tail: i64,
    pub head: i64,
    pub a: i64,
    pub b: i64,
    pub c: i64,
}

#[repr(C)]
#[derive(Clone, Copy, Debug, Default, PartialEq, Eq)]
pub struct dnorm_place {
    pub pairs: usize,
    pub within: u64,
    pub a: i64,
    pub b: i64,
    pub c: i64,
}

#[repr(C)]
#[derive(Clone, Copy, Debug, Default, PartialEq, Eq)]
pub struct dnorm_item {
    pub id: i64,
    pub a: i64,
    pub b: i64,
}

pub const DNORM_SAME: u8 = 0;
pub const DNORM_KINDS_DIFFER: u8 = 1;
pub const DNORM_NODES_DIFFER: u8 = 2;
pub const DNORM_SUPPLY_DIFFERS: u8 = 3;
pub const DNORM_SOURCE_DIFFERS: u8 = 4;
pub const DNORM_SINK_DIFFERS: u8 = 5;
pub const DNORM_PAIR_DIFFERS: u8 = 6;
pub const DNORM_LENGTH_DIFFERS: u8 = 7;
pub const DNORM_ITEM_DIFFERS: u8 = 8;
pub const DNORM_POINT_DIFFERS: u8 = 9;
pub const DNORM_NOT_BOTH: u8 = 255;

#[repr(C)]
#[derive(Clone, Copy, Debug, PartialEq, Eq)]
pub struct dnorm_value {
    pub known: bool,
    pub high: i64,
    pub low: u64,
}

#[repr(C)]
#[derive(Clone, Copy, Debug, PartialEq, Eq)]
pub struct dnorm_difference {
    pub what: u8,
    pub at: i64,
    pub to: i64,
    pub index: u64,
    pub amount: i64,
    pub left: dnorm_value,
    pub right: dnorm_value,
}

pub const DNORM_FITS: u8 = 0;
pub const DNORM_NOT_IN_GRAPH: u8 = 35;
pub const DNORM_NOT_KINDS: u8 = 36;

#[repr(C)]
#[derive(Clone, Copy, Debug, PartialEq, Eq)]
pub struct dnorm_fit {
    pub code: u8,
    pub node: i64,
}

#[repr(C)]
#[derive(Clone, Copy, Debug, Default, PartialEq, Eq)]
pub struct dnorm_row {
    pub line: u64,
    pub tail: i64,
    pub head: i64,
    pub a: i64,
    pub b: i64,
    pub c: i64,
}

#[repr(C)]
#[derive(Clone, Copy, Debug, PartialEq, Eq)]
pub struct dnorm_lines_given {
    pub used: usize,
    pub count: usize,
    pub code: u8,
    pub line: u64,
}

#[repr(C)]
#[derive(Clone, Copy, Debug, Default, PartialEq, Eq)]
pub struct dnorm_share {
    pub cost: i64,
    pub rest: i64,
    pub left: i64,
}

extern "C" {
    pub fn dnorm_begin(reader: *mut dnorm) -> dnorm_status;
    pub fn dnorm_feed(reader: *mut dnorm, bytes: *const u8, length: usize) -> dnorm_status;
    pub fn dnorm_finish(reader: *mut dnorm) -> dnorm_status;
    pub fn dnorm_facts(any: *const dnorm) -> dnorm_summary;
    pub fn dnorm_arc_count(graph: *const dnorm, form: u8) -> dnorm_count;
    pub fn dnorm_next(
        graph: *const dnorm,
        form: u8,
        place: *mut dnorm_place,
        out: *mut dnorm_arc,
        room: usize,
    ) -> dnorm_count;
    pub fn dnorm_items(
        instance: *const dnorm,
        place: *mut dnorm_place,
        out: *mut dnorm_item,
        room: usize,
    ) -> dnorm_count;
    pub fn dnorm_canon(instance: *const dnorm, form: u8, text: *mut dnorm) -> dnorm_status;
    pub fn dnorm_text(text: *mut dnorm, from: usize, out: *mut u8, room: usize) -> dnorm_count;
    pub fn dnorm_compare(left: *const dnorm, right: *const dnorm) -> dnorm_difference;
    pub fn dnorm_fits(graph: *const dnorm, companion: *const dnorm) -> dnorm_fit;
    pub fn dnorm_lines_begin(reader: *mut dnorm) -> dnorm_status;
    pub fn dnorm_lines(
        reader: *mut dnorm,
        bytes: *const u8,
        length: usize,
        out: *mut dnorm_row,
        room: usize,
    ) -> dnorm_lines_given;
    pub fn dnorm_spread(
        graph: *const dnorm,
        form: u8,
        flow: *const i64,
        flow_count: usize,
        lines: *const dnorm_row,
        line_count: usize,
        shares: *mut dnorm_share,
        share_count: usize,
        units: *mut i64,
        unit_count: usize,
    ) -> dnorm_status;
    pub fn dnorm_free(any: *mut dnorm);
}
