//! Severities of scores.

use crate::Error;
use core::fmt;
use core::str::FromStr;

/// The severity of a score.
#[derive(Clone, Copy, Debug, PartialEq, Eq, PartialOrd, Ord, Hash)]
pub enum Severity {
    /// No severity. CVSS v2 has none of it.
    None,
    /// Low.
    Low,
    /// Medium.
    Medium,
    /// High.
    High,
    /// Critical. CVSS v2 has none of it.
    Critical,
}

impl Severity {
    const ALL: [Severity; 5] = [
        Severity::None,
        Severity::Low,
        Severity::Medium,
        Severity::High,
        Severity::Critical,
    ];

    /// The name, in lower case.
    #[must_use]
    pub fn as_str(self) -> &'static str {
        match self {
            Severity::None => "none",
            Severity::Low => "low",
            Severity::Medium => "medium",
            Severity::High => "high",
            Severity::Critical => "critical",
        }
    }

    /// The severity of a score of CVSS v3 or v4.0.
    #[cfg(any(feature = "v3", feature = "v4"))]
    pub(crate) fn since_v3(score: f64) -> Severity {
        if score < 0.1 {
            Severity::None
        } else if score < 4.0 {
            Severity::Low
        } else if score < 7.0 {
            Severity::Medium
        } else if score < 9.0 {
            Severity::High
        } else {
            Severity::Critical
        }
    }
}

impl FromStr for Severity {
    type Err = Error;

    /// Reads a name in any ASCII case.
    fn from_str(name: &str) -> Result<Severity, Error> {
        let mut all = Severity::ALL.into_iter();
        all.find(|severity| severity.as_str().eq_ignore_ascii_case(name))
            .ok_or_else(|| Error::InvalidSeverity {
                name: name.to_owned(),
            })
    }
}

impl fmt::Display for Severity {
    fn fmt(&self, f: &mut fmt::Formatter<'_>) -> fmt::Result {
        f.write_str(self.as_str())
    }
}
