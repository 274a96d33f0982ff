//! A score of CVSS v2.

use crate::{library, Severity};
use cvss_proved::Version;

/// A score or sub-score of CVSS v2.
#[derive(Clone, Copy, Debug, Default, PartialEq, PartialOrd)]
pub struct Score(f64);

impl Score {
    /// The score of this number.
    #[must_use]
    pub fn new(score: f64) -> Score {
        Score(score)
    }

    /// The number.
    #[must_use]
    pub fn value(self) -> f64 {
        self.0
    }

    /// The nearest tenth, after 10^-6 is added, and half away from zero. A number that is more than 999,999
    /// from 0 stays as it is.
    #[must_use]
    pub fn roundup(self) -> Score {
        Score(library::rounded(Version::V20, self.0))
    }

    /// The severity, by the bounds of the National Vulnerability Database.
    #[must_use]
    pub fn severity(self) -> Severity {
        if self.0 < 4.0 {
            Severity::Low
        } else if self.0 < 7.0 {
            Severity::Medium
        } else {
            Severity::High
        }
    }
}

impl From<f64> for Score {
    fn from(score: f64) -> Score {
        Score(score)
    }
}

impl From<Score> for f64 {
    fn from(score: Score) -> f64 {
        score.0
    }
}

impl From<Score> for Severity {
    fn from(score: Score) -> Severity {
        score.severity()
    }
}
