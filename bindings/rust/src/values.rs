//! A vector as the values of its metrics, without a text.

use crate::calls;
use crate::library::{ALLOW_INCOMPLETE, MOST_METRICS};
use crate::metrics::field_text;
use crate::{metrics, Nomenclature, Score, Version};

/// The values of a vector's metrics, its version and its score. It allocates no memory.
///
/// ```
/// use cvss_proved::{Values, Version};
///
/// let values = Values::parse("CVSS:3.1/AV:N/AC:L/PR:N/UI:N/S:U/C:H/I:H/A:H/E:U").unwrap();
/// assert_eq!((values.version(), values.score().tenths()), (Version::V31, 90));
/// assert_eq!((values.value("AV"), values.value("E"), values.value("RL")), (Some("N"), Some("U"), None));
/// assert_eq!(Values::parse("CVSS:3.1/AV:N"), None);
/// ```
// The struct `CvssValues` of `cvss.h`.
#[derive(Clone, Copy, Debug, PartialEq, Eq)]
#[repr(C)]
pub struct Values {
    size: u32,
    version: i32,
    score: i32,
    nomenclature: i32,
    fields: [[u8; 8]; MOST_METRICS],
}

impl Values {
    /// The values of the vector that a text denotes; `None` if the text is rejected.
    #[must_use]
    #[inline]
    pub fn parse(text: &str) -> Option<Values> {
        Values::with(text, |values| *values)
    }

    /// [`Values::parse`], but a v3 vector may lack base metrics.
    ///
    /// ```
    /// let values = cvss_proved::Values::parse_incomplete("CVSS:3.1/AV:N").unwrap();
    /// assert_eq!((values.value("AV"), values.value("AC")), (Some("N"), None));
    /// ```
    #[must_use]
    #[inline]
    pub fn parse_incomplete(text: &str) -> Option<Values> {
        Values::with_incomplete(text, |values| *values)
    }

    /// What a function makes of the values of the vector that a text denotes; `None` if the text is
    /// rejected. It saves the copy that [`Values::parse`] returns.
    #[inline]
    pub fn with<T>(text: &str, call: impl FnOnce(&Values) -> T) -> Option<T> {
        calls::with_values(text.as_bytes(), 0, call)
    }

    /// [`Values::with`], but a v3 vector may lack base metrics.
    #[inline]
    pub fn with_incomplete<T>(text: &str, call: impl FnOnce(&Values) -> T) -> Option<T> {
        calls::with_values(text.as_bytes(), ALLOW_INCOMPLETE, call)
    }

    /// The version of the standard.
    #[must_use]
    #[inline]
    pub fn version(&self) -> Version {
        Version::of(self.version)
    }

    /// The score with all metrics in the vector, as [`Cvss::score`](crate::Cvss::score).
    #[must_use]
    #[inline]
    pub fn score(&self) -> Score {
        Score::of(self.score).unwrap_or_default()
    }

    /// Which groups of metrics the score counts, in v4.0.
    #[must_use]
    #[inline]
    pub fn nomenclature(&self) -> Option<Nomenclature> {
        Nomenclature::of(self.nomenclature)
    }

    /// The spelling of the value of each metric, filled up with bytes 0, in the order of
    /// [`metrics`]; eight bytes 0 of a metric that the vector lacks.
    #[must_use]
    #[inline]
    pub fn fields(&self) -> &[[u8; 8]; 32] {
        &self.fields
    }

    /// The spelling of the value of a metric, by the metric's abbreviation.
    #[must_use]
    #[inline]
    pub fn value(&self, name: &str) -> Option<&str> {
        let mut all = metrics(self.version()).iter().zip(self.fields());
        let (_, field) = all.find(|(metric, _)| metric.name == name)?;
        Some(field_text(field)).filter(|value| !value.is_empty())
    }
}
