//! The calls of the library: the one module with unsafe code.
//!
//! No call keeps a pointer, and each needs only pointers to as many bytes as its lengths say, which
//! slices have. Each struct has its size in its first member, so the library writes no more than the
//! struct.

use crate::library::{
    cvss_explain, cvss_find, cvss_from_metrics, cvss_metrics, cvss_numbers, cvss_parse,
    cvss_record, cvss_rounded, cvss_score, cvss_score_line, cvss_score_lines, cvss_severity,
    cvss_temporal_with_impact, cvss_values, cvss_with_metrics, cvss_without_not_defined,
};
use crate::library::{
    size, CvssError, CvssMatch, CvssMetric, CvssNumber, CvssNumbers, CvssVector, ALLOW_INCOMPLETE,
    MOST_METRICS,
};
use crate::Values;
use std::mem::MaybeUninit;
use std::ptr;

/// An error with its message.
pub(crate) type Rejected = (CvssError, String);

/// The vector that a text denotes, with its canonical text.
pub(crate) fn parse(text: &[u8], flags: u32) -> Result<(CvssVector, String), Rejected> {
    let mut vector = CvssVector::new();
    let canonical = text_or_error(text.len(), |error, buffer| {
        // SAFETY: the pointers are those of slices and of structs that live through the call and do
        // not overlap.
        unsafe {
            cvss_parse(
                text.as_ptr(),
                text.len(),
                flags,
                &mut vector,
                error,
                buffer.as_mut_ptr(),
                buffer.len(),
            )
        }
    })?;
    Ok((vector, canonical))
}

/// The vector that a text denotes, without its text.
pub(crate) fn scores(text: &[u8], flags: u32) -> Option<CvssVector> {
    let mut error = CvssError::new();
    let mut vector = CvssVector::new();
    // SAFETY: the pointers are those of a slice and of structs that live through the call and do not
    // overlap; the buffer is empty.
    unsafe {
        cvss_parse(
            text.as_ptr(),
            text.len(),
            flags,
            &mut vector,
            &mut error,
            ptr::null_mut(),
            0,
        )
    };
    (error.kind == 0).then_some(vector)
}

/// The tenths of the score of the vector that a text denotes, or -1.
#[inline]
pub(crate) fn score(text: &[u8], flags: u32) -> i32 {
    // SAFETY: the pointer is that of a slice that lives through the call.
    unsafe { cvss_score(text.as_ptr(), text.len(), flags) }
}

/// What a function makes of the values of the vector that a text denotes.
#[inline]
pub(crate) fn with_values<T>(
    text: &[u8],
    flags: u32,
    call: impl FnOnce(&Values) -> T,
) -> Option<T> {
    let mut values = MaybeUninit::<Values>::uninit();
    let pointer = values.as_mut_ptr();
    // SAFETY: the pointers are those of a slice and of a struct that live through the call and do not
    // overlap. The size is the first member of the struct.
    let is_vector = unsafe {
        pointer.cast::<u32>().write(size::<Values>());
        cvss_values(text.as_ptr(), text.len(), flags, pointer)
    };
    // SAFETY: if it is a vector, the call has written all members but the size.
    is_vector.then(|| call(unsafe { values.assume_init_ref() }))
}

/// The metrics of the vector that a text denotes, complete or not.
pub(crate) fn metrics(text: &[u8]) -> Vec<CvssMetric> {
    let mut metrics = vec![CvssMetric::default(); MOST_METRICS];
    // SAFETY: the pointers are those of slices that live through the call and do not overlap.
    let count = unsafe {
        cvss_metrics(
            text.as_ptr(),
            text.len(),
            ALLOW_INCOMPLETE,
            metrics.as_mut_ptr(),
            metrics.len(),
        )
    };
    metrics.truncate(count);
    metrics
}

/// The canonical text of the vector that a text denotes, complete or not, with these metrics.
pub(crate) fn with_metrics(text: &[u8], metrics: &[u8]) -> Result<String, Rejected> {
    text_or_error(text.len() + metrics.len(), |error, buffer| {
        // SAFETY: as in `parse`.
        unsafe {
            cvss_with_metrics(
                text.as_ptr(),
                text.len(),
                metrics.as_ptr(),
                metrics.len(),
                ALLOW_INCOMPLETE,
                error,
                buffer.as_mut_ptr(),
                buffer.len(),
            )
        }
    })
}

/// The canonical text of the vector of a version with these metrics.
pub(crate) fn from_metrics(version: i32, metrics: &[u8], flags: u32) -> Result<String, Rejected> {
    text_or_error(metrics.len(), |error, buffer| {
        // SAFETY: as in `parse`.
        unsafe {
            cvss_from_metrics(
                version,
                metrics.as_ptr(),
                metrics.len(),
                flags,
                error,
                buffer.as_mut_ptr(),
                buffer.len(),
            )
        }
    })
}

/// What a call writes of a text.
type OfText = unsafe extern "C" fn(*const u8, usize, u32, *mut CvssError, *mut u8, usize) -> usize;

/// What a call writes of the vector that a text denotes, complete or not.
fn of_vector(size: usize, text: &[u8], call: OfText) -> String {
    let written = text_or_error(size, |error, buffer| {
        // SAFETY: as in `parse`: each call of this type reads a slice and writes into a struct and a slice.
        unsafe {
            call(
                text.as_ptr(),
                text.len(),
                ALLOW_INCOMPLETE,
                error,
                buffer.as_mut_ptr(),
                buffer.len(),
            )
        }
    });
    written.unwrap_or_default()
}

/// The canonical text of the vector that a text denotes, without its metrics that are not defined.
pub(crate) fn without_not_defined(text: &[u8]) -> String {
    of_vector(text.len(), text, cvss_without_not_defined)
}

/// The record of the vector that a text denotes.
pub(crate) fn record(text: &[u8]) -> String {
    of_vector(1 << 11, text, cvss_record)
}

/// The explanation of the score of the vector that a text denotes.
pub(crate) fn explain(text: &[u8]) -> String {
    of_vector(1 << 11, text, cvss_explain)
}

/// The line that the command prints for a text.
pub(crate) fn score_line(text: &[u8], flags: u32) -> String {
    text_of(written(text.len() + LONGEST_WORDS, |buffer| {
        // SAFETY: the pointers are those of slices that live through the call and do not overlap.
        unsafe {
            cvss_score_line(
                text.as_ptr(),
                text.len(),
                flags,
                buffer.as_mut_ptr(),
                buffer.len(),
            )
        }
    }))
}

/// The lines that the command prints for texts that newlines end, each with its newline.
pub(crate) fn score_lines(texts: &[u8], flags: u32) -> String {
    let mut all = Vec::with_capacity(2 * texts.len());
    let mut buffer = vec![0; 1 << 16];
    let mut rest = texts;
    while rest.contains(&b'\n') {
        let mut read = 0;
        // SAFETY: the pointers are those of slices and of a number that live through the call and
        // do not overlap.
        let written = unsafe {
            cvss_score_lines(
                rest.as_ptr(),
                rest.len(),
                flags,
                buffer.as_mut_ptr(),
                buffer.len(),
                &mut read,
            )
        };
        all.extend_from_slice(&buffer[..written]);
        rest = &rest[read..];
        if read == 0 {
            buffer.resize(2 * buffer.len(), 0);
        }
    }
    text_of(all)
}

/// Whether there is another match in a text, which replaces the one before it.
pub(crate) fn find(text: &[u8], found: &mut CvssMatch) -> bool {
    // SAFETY: the pointers are those of a slice and of a struct that live through the call and do not
    // overlap.
    unsafe { cvss_find(text.as_ptr(), text.len(), found) }
}

/// The number of the severity of a score in tenths, by the bounds of a version.
pub(crate) fn severity(version: i32, tenths: i32) -> i32 {
    // SAFETY: the call takes no pointer.
    unsafe { cvss_severity(version, tenths) }
}

/// The scores and sub-scores of the vector of v2 or v3 with these metrics.
pub(crate) fn numbers(version: i32, metrics: &[u8]) -> Option<CvssNumbers> {
    let mut numbers = CvssNumbers::new();
    // SAFETY: the pointers are those of a slice and of a struct that live through the call and do not
    // overlap.
    let are_written =
        unsafe { cvss_numbers(version, metrics.as_ptr(), metrics.len(), &mut numbers) };
    are_written.then_some(numbers)
}

/// The tenths of a number that is rounded as the scores of a version are.
pub(crate) fn rounded(version: i32, number: &CvssNumber) -> Option<i32> {
    let mut tenths = 0;
    // SAFETY: the pointers are those of a struct and of a number that live through the call and do not
    // overlap.
    let is_rounded = unsafe { cvss_rounded(version, number, &mut tenths) };
    is_rounded.then_some(tenths)
}

/// The tenths of the temporal score of the vector of v2 with these metrics and this impact.
pub(crate) fn temporal_with_impact(metrics: &[u8], impact: &CvssNumber) -> Option<i32> {
    let mut tenths = 0;
    // SAFETY: the pointers are those of a slice, of a struct and of a number that live through the call
    // and do not overlap.
    let is_scored =
        unsafe { cvss_temporal_with_impact(metrics.as_ptr(), metrics.len(), impact, &mut tenths) };
    is_scored.then_some(tenths)
}

/// The length of the longest message or line, without the part of the text that it quotes.
const LONGEST_WORDS: usize = 120;

/// What a call makes of texts of this length: a text, or an error with its message. One call does,
/// unless what it writes is longer than its texts by more than the words of a message.
fn text_or_error(
    length: usize,
    mut call: impl FnMut(&mut CvssError, &mut [u8]) -> usize,
) -> Result<String, Rejected> {
    let mut error = CvssError::new();
    let text = text_of(written(length + LONGEST_WORDS, |buffer| {
        call(&mut error, buffer)
    }));
    match error.kind {
        0 => Ok(text),
        _ => Err((error, text)),
    }
}

/// What a call writes into a buffer that is large enough; tried first with one of at least this size.
fn written(size: usize, mut call: impl FnMut(&mut [u8]) -> usize) -> Vec<u8> {
    let mut small = [0; 512];
    let mut length = size;
    if size <= small.len() {
        length = call(&mut small);
        if let Some(text) = small.get(..length) {
            return text.to_vec();
        }
    }
    let mut buffer = Vec::new();
    while length > buffer.len() {
        buffer.resize(length, 0);
        length = call(&mut buffer);
    }
    buffer.truncate(length);
    buffer
}

/// The library writes in the encoding of the text that it was given.
fn text_of(bytes: Vec<u8>) -> String {
    match String::from_utf8(bytes) {
        Ok(text) => text,
        Err(error) => String::from_utf8_lossy(error.as_bytes()).into_owned(),
    }
}

#[cfg(test)]
mod tests {
    use super::written;

    /// A call that writes more than the buffer holds leaves it as it was, and is repeated.
    #[test]
    fn a_buffer_that_is_too_short_is_replaced() {
        let text = "abc".repeat(1000);
        for length in [0, 1, 512, 513, 3000] {
            for size in [0, 1, 512, 513, 4000] {
                let own = written(size, |buffer| {
                    if let Some(start) = buffer.get_mut(..length) {
                        start.copy_from_slice(&text.as_bytes()[..length]);
                    }
                    length
                });
                assert_eq!(own, &text.as_bytes()[..length], "{size}");
            }
        }
    }
}
