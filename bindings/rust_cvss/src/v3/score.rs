//! A score of CVSS v3.

use crate::{library, Severity};
use cvss_proved::Version;

/// A score or sub-score of CVSS v3.
#[derive(Clone, Copy, Debug, Default, PartialEq, PartialOrd)]
pub struct Score(f64);

impl Score {
    /// The score of this number.
    #[must_use]
    pub fn new(score: f64) -> Score {
        Score(score)
    }

    /// The number.
    #[must_use]
    pub fn value(self) -> f64 {
        self.0
    }

    /// The number rounded as v3.1 rounds (Appendix A). One that is more than 999,999 from 0 stays as
    /// it is.
    #[must_use]
    pub fn roundup(self) -> Score {
        self.roundup_for_version(1)
    }

    /// The number rounded as v3.0 rounds for minor version 0, and else as v3.1 does.
    #[must_use]
    pub fn roundup_for_version(self, minor_version: usize) -> Score {
        Score(library::rounded(version_of(minor_version), self.0))
    }

    /// The severity.
    #[must_use]
    pub fn severity(self) -> Severity {
        Severity::since_v3(self.0)
    }
}

/// The version whose rules a minor version has.
pub(super) fn version_of(minor_version: usize) -> Version {
    if minor_version == 0 {
        Version::V30
    } else {
        Version::V31
    }
}

impl From<f64> for Score {
    fn from(score: f64) -> Score {
        Score(score)
    }
}

impl From<Score> for f64 {
    fn from(score: Score) -> f64 {
        score.0
    }
}

impl From<Score> for Severity {
    fn from(score: Score) -> Severity {
        score.severity()
    }
}
