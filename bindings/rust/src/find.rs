//! Vectors in any text.

use crate::calls;
use crate::library::{CvssMatch, ALLOW_INCOMPLETE};
use crate::{Cvss, ParseError};
use std::iter::FusedIterator;

/// A vector in a text.
#[derive(Clone, Debug, PartialEq, Eq, Hash)]
pub struct Match<'a> {
    /// The offset of its first byte in the text.
    pub offset: usize,
    /// The text of the match, which is ASCII.
    pub text: &'a str,
    /// The vector; or why the match is rejected, if it is no valid vector but was probably meant as
    /// one: it begins with `CVSS:` and has a slash, its prefix is written in another way
    /// (`cvss:3.1/AV:N`, `CVSS3.1/AV:N`) or missing (`AV:N/AC:L/PR:N`), or it is encoded as in a link
    /// or in JSON.
    pub found: Result<Cvss, ParseError>,
}

/// The vectors in a text, in order. [`find`] and [`find_incomplete`] make it.
#[derive(Clone, Debug)]
#[must_use = "it finds nothing until it is asked for the next match"]
pub struct Matches<'a> {
    text: &'a [u8],
    flags: u32,
    state: CvssMatch,
}

impl<'a> Iterator for Matches<'a> {
    type Item = Match<'a>;

    fn next(&mut self) -> Option<Match<'a>> {
        if !calls::find(self.text, &mut self.state) {
            return None;
        }
        let offset = self.state.offset;
        let text = &self.text[offset..offset + self.state.length];
        Some(Match {
            offset,
            text: std::str::from_utf8(text).unwrap_or_default(),
            found: Cvss::parse_with_flags(text, self.flags),
        })
    }
}

impl FusedIterator for Matches<'_> {}

/// The vectors in any text, in order: in a sentence, in parentheses, in a link. The text need not be
/// UTF-8. A v3 vector that lacks base metrics is found, and its error says which is the first missing
/// one.
///
/// ```
/// use cvss_proved::find;
///
/// let text = "scored 7.8 (AV:N/AC:L/Au:N/C:N/I:N/A:C), or CVSS:3.1/AV:Q.";
/// let matches: Vec<_> = find(text).collect();
/// assert_eq!((matches[0].offset, matches[0].text), (12, "AV:N/AC:L/Au:N/C:N/I:N/A:C"));
/// assert_eq!(matches[0].found.as_ref().unwrap().score().tenths(), 78);
/// assert_eq!((matches[1].offset, matches[1].text), (44, "CVSS:3.1/AV:Q"));
/// assert_eq!(matches[1].found.as_ref().unwrap_err().metric(), Some("AV"));
/// assert_eq!(matches.len(), 2);
/// ```
pub fn find<T: AsRef<[u8]> + ?Sized>(text: &T) -> Matches<'_> {
    matches(text.as_ref(), 0)
}

/// [`find`], but accepts v3 vectors that lack base metrics.
pub fn find_incomplete<T: AsRef<[u8]> + ?Sized>(text: &T) -> Matches<'_> {
    matches(text.as_ref(), ALLOW_INCOMPLETE)
}

fn matches(text: &[u8], flags: u32) -> Matches<'_> {
    Matches {
        text,
        flags,
        state: CvssMatch::new(),
    }
}
