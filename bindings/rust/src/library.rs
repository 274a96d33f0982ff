//! The library's functions and structs, as `bindings/c/cvss.h` declares them.

use crate::Values;
use std::mem::size_of;

/// The library's flag for v3 vectors that may lack base metrics; 0 rejects them.
pub(crate) const ALLOW_INCOMPLETE: u32 = 1;

/// The size of a struct as its first member has it.
#[allow(clippy::cast_possible_truncation)] // no struct has more than a few hundred bytes
pub(crate) const fn size<T>() -> u32 {
    size_of::<T>() as u32
}

// The sizes of the structs in the header; `Values` is its `CvssValues`.
const _: () = assert!(size::<CvssVector>() == 64 && size::<CvssError>() == 40);
const _: () = assert!(size::<CvssMetric>() == 16 && size::<Values>() == 272);
const _: () = assert!(size::<CvssNumbers>() == 64 && size::<CvssMatch>() == 32);

/// Structs that have their size in their first member, which tells the library what it may write.
macro_rules! sized {
    ($($type:ident),+) => {
        $(
            impl $type {
                /// The struct as it is before a call.
                pub(crate) fn new() -> $type {
                    $type {
                        size: size::<$type>(),
                        ..$type::default()
                    }
                }
            }
        )+
    };
}

sized! { CvssVector, CvssError, CvssNumbers, CvssMatch }

/// The struct of the same name in `cvss.h`.
#[derive(Clone, Copy, Default)]
#[repr(C)]
pub(crate) struct CvssVector {
    size: u32,
    pub(crate) version: i32,
    pub(crate) score: i32,
    pub(crate) severity: i32,
    pub(crate) base: i32,
    pub(crate) base_severity: i32,
    pub(crate) temporal: i32,
    pub(crate) temporal_severity: i32,
    pub(crate) environmental: i32,
    pub(crate) environmental_severity: i32,
    pub(crate) nomenclature: i32,
    pub(crate) by_nomenclature: [i32; 4],
    pub(crate) is_complete: i32,
}

/// The struct of the same name in `cvss.h`. What is reserved is not read.
#[derive(Clone, Copy, Default)]
#[repr(C)]
pub(crate) struct CvssError {
    size: u32,
    pub(crate) kind: i32,
    pub(crate) index: i32,
    reserved: i32,
    pub(crate) metric: [u8; 8],
    pub(crate) quoted_start: usize,
    pub(crate) quoted_length: usize,
}

/// The struct of the same name in `cvss.h`.
#[derive(Clone, Copy, Default)]
#[repr(C)]
pub(crate) struct CvssMetric {
    pub(crate) name: [u8; 8],
    pub(crate) value: [u8; 8],
}

/// The struct of the same name in `cvss.h`: so many 10^-12, and so many 10^-24.
#[derive(Clone, Copy, Default)]
#[repr(C)]
pub(crate) struct CvssNumber {
    pub(crate) trillionths: i64,
    pub(crate) rest: i64,
}

/// The struct of the same name in `cvss.h`.
#[derive(Clone, Copy, Default)]
#[repr(C)]
pub(crate) struct CvssNumbers {
    size: u32,
    pub(crate) base: i32,
    pub(crate) temporal: i32,
    pub(crate) environmental: i32,
    pub(crate) impact: CvssNumber,
    pub(crate) exploitability: CvssNumber,
    pub(crate) adjusted_impact: CvssNumber,
}

/// The struct of the same name in `cvss.h`.
#[derive(Clone, Copy, Debug, Default)]
#[repr(C)]
pub(crate) struct CvssMatch {
    size: u32,
    next: usize,
    pub(crate) offset: usize,
    pub(crate) length: usize,
}

/// No vector has more metrics.
pub(crate) const MOST_METRICS: usize = 32;

extern "C" {
    pub(crate) fn cvss_parse(
        text: *const u8,
        length: usize,
        flags: u32,
        vector: *mut CvssVector,
        error: *mut CvssError,
        buffer: *mut u8,
        size: usize,
    ) -> usize;
    pub(crate) fn cvss_score(text: *const u8, length: usize, flags: u32) -> i32;
    pub(crate) fn cvss_metrics(
        text: *const u8,
        length: usize,
        flags: u32,
        metrics: *mut CvssMetric,
        count: usize,
    ) -> usize;
    pub(crate) fn cvss_values(
        text: *const u8,
        length: usize,
        flags: u32,
        values: *mut Values,
    ) -> bool;
    pub(crate) fn cvss_with_metrics(
        text: *const u8,
        length: usize,
        metrics: *const u8,
        metrics_length: usize,
        flags: u32,
        error: *mut CvssError,
        buffer: *mut u8,
        size: usize,
    ) -> usize;
    pub(crate) fn cvss_from_metrics(
        version: i32,
        metrics: *const u8,
        metrics_length: usize,
        flags: u32,
        error: *mut CvssError,
        buffer: *mut u8,
        size: usize,
    ) -> usize;
    pub(crate) fn cvss_without_not_defined(
        text: *const u8,
        length: usize,
        flags: u32,
        error: *mut CvssError,
        buffer: *mut u8,
        size: usize,
    ) -> usize;
    pub(crate) fn cvss_record(
        text: *const u8,
        length: usize,
        flags: u32,
        error: *mut CvssError,
        buffer: *mut u8,
        size: usize,
    ) -> usize;
    pub(crate) fn cvss_explain(
        text: *const u8,
        length: usize,
        flags: u32,
        error: *mut CvssError,
        buffer: *mut u8,
        size: usize,
    ) -> usize;
    pub(crate) fn cvss_score_line(
        text: *const u8,
        length: usize,
        flags: u32,
        buffer: *mut u8,
        size: usize,
    ) -> usize;
    pub(crate) fn cvss_score_lines(
        texts: *const u8,
        length: usize,
        flags: u32,
        buffer: *mut u8,
        size: usize,
        read: *mut usize,
    ) -> usize;
    pub(crate) fn cvss_find(text: *const u8, length: usize, found: *mut CvssMatch) -> bool;
    pub(crate) fn cvss_severity(version: i32, tenths: i32) -> i32;
    pub(crate) fn cvss_numbers(
        version: i32,
        metrics: *const u8,
        metrics_length: usize,
        numbers: *mut CvssNumbers,
    ) -> bool;
    pub(crate) fn cvss_rounded(version: i32, number: *const CvssNumber, tenths: *mut i32) -> bool;
    pub(crate) fn cvss_temporal_with_impact(
        metrics: *const u8,
        metrics_length: usize,
        impact: *const CvssNumber,
        tenths: *mut i32,
    ) -> bool;
}
