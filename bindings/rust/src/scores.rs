//! Scores alone, without the canonical text.

use crate::calls;
use crate::library::{CvssVector, ALLOW_INCOMPLETE};
use crate::{Nomenclature, Score, Version};

/// The scores of a vector.
#[derive(Clone, Copy, Debug, PartialEq, Eq)]
#[non_exhaustive]
pub struct Scores {
    /// The version of the standard.
    pub version: Version,
    /// The score with all metrics in the vector, as [`Cvss::score`](crate::Cvss::score).
    pub score: Score,
    /// The score of the base metrics alone; in v4.0 that of CVSS-B.
    pub base: Score,
    /// The temporal score, which v2 and v3 have.
    pub temporal: Option<Score>,
    /// The environmental score, which v2 and v3 have.
    pub environmental: Option<Score>,
    /// Which groups of metrics the score counts, in v4.0.
    pub nomenclature: Option<Nomenclature>,
}

impl Scores {
    pub(crate) fn of(vector: &CvssVector) -> Scores {
        Scores {
            version: Version::of(vector.version),
            score: Score::of(vector.score).unwrap_or_default(),
            base: Score::of(vector.base).unwrap_or_default(),
            temporal: Score::of(vector.temporal),
            environmental: Score::of(vector.environmental),
            nomenclature: Nomenclature::of(vector.nomenclature),
        }
    }
}

/// The score of a text, as [`Cvss::score`](crate::Cvss::score); `None` if the text is rejected. It
/// allocates no memory, and takes less time than [`scores`], since it computes no other score.
///
/// ```
/// let score = cvss_proved::score("CVSS:3.1/AV:N/AC:L/PR:N/UI:N/S:U/C:H/I:H/A:H/E:U").unwrap();
/// assert_eq!(score.tenths(), 90);
/// assert_eq!(cvss_proved::score("CVSS:3.1/AV:N"), None);
/// ```
#[must_use]
#[inline]
pub fn score(text: &str) -> Option<Score> {
    Score::of(calls::score(text.as_bytes(), 0))
}

/// [`score`], but a v3 vector may lack base metrics.
///
/// ```
/// let score = cvss_proved::score_incomplete("CVSS:3.1/AV:N/AC:L/PR:N/UI:N/S:U/C:H").unwrap();
/// assert_eq!(score.tenths(), 75);
/// ```
#[must_use]
#[inline]
pub fn score_incomplete(text: &str) -> Option<Score> {
    Score::of(calls::score(text.as_bytes(), ALLOW_INCOMPLETE))
}

/// The scores of a text; `None` if it is rejected. It allocates no memory, and takes less time than
/// [`Cvss::parse`](crate::Cvss::parse).
///
/// ```
/// let scores = cvss_proved::scores("CVSS:3.1/AV:N/AC:L/PR:N/UI:N/S:U/C:H/I:H/A:H/E:U").unwrap();
/// assert_eq!((scores.base.tenths(), scores.score.tenths()), (98, 90));
/// assert_eq!(cvss_proved::scores("CVSS:3.1/AV:Q"), None);
/// ```
#[must_use]
pub fn scores(text: &str) -> Option<Scores> {
    calls::scores(text.as_bytes(), 0).as_ref().map(Scores::of)
}

/// [`scores`], but a v3 vector may lack base metrics.
#[must_use]
pub fn scores_incomplete(text: &str) -> Option<Scores> {
    let vector = calls::scores(text.as_bytes(), ALLOW_INCOMPLETE);
    vector.as_ref().map(Scores::of)
}
