//! What the library's numbers mean.

use crate::calls;
use std::fmt;
use std::str::FromStr;

/// A text that names no value of a type.
#[derive(Clone, Copy, Debug, PartialEq, Eq, Hash)]
pub struct UnknownName;

impl fmt::Display for UnknownName {
    fn fmt(&self, f: &mut fmt::Formatter<'_>) -> fmt::Result {
        f.pad("unknown name")
    }
}

impl std::error::Error for UnknownName {}

/// The texts of an enum's values: they are printed, and read back if a text is equal by a
/// comparison.
macro_rules! named {
    ($(#[$doc:meta])* $type:ident by $is_same:path: $($value:ident => $text:literal),+) => {
        impl $type {
            /// The value's text.
            #[must_use]
            pub fn as_str(self) -> &'static str {
                match self {
                    $($type::$value => $text,)+
                }
            }
        }

        impl AsRef<str> for $type {
            fn as_ref(&self) -> &str {
                self.as_str()
            }
        }

        impl fmt::Display for $type {
            fn fmt(&self, f: &mut fmt::Formatter<'_>) -> fmt::Result {
                f.pad(self.as_str())
            }
        }

        $(#[$doc])*
        impl FromStr for $type {
            type Err = UnknownName;

            fn from_str(text: &str) -> Result<$type, UnknownName> {
                [$($type::$value),+]
                    .into_iter()
                    .find(|value| $is_same(value.as_str(), text))
                    .ok_or(UnknownName)
            }
        }

        impl TryFrom<&str> for $type {
            type Error = UnknownName;

            fn try_from(text: &str) -> Result<$type, UnknownName> {
                text.parse()
            }
        }
    };
}

/// A version of the standard.
#[derive(Clone, Copy, Debug, PartialEq, Eq, PartialOrd, Ord, Hash)]
pub enum Version {
    /// CVSS v2.
    V20,
    /// CVSS v3.0.
    V30,
    /// CVSS v3.1.
    V31,
    /// CVSS v4.0.
    V40,
}

impl Version {
    pub(crate) fn of(number: i32) -> Version {
        match number {
            20 => Version::V20,
            30 => Version::V30,
            31 => Version::V31,
            _ => Version::V40,
        }
    }

    pub(crate) fn number(self) -> i32 {
        match self {
            Version::V20 => 20,
            Version::V30 => 30,
            Version::V31 => 31,
            Version::V40 => 40,
        }
    }
}

named! {
    /// Reads `2.0`, `3.0`, `3.1` or `4.0`.
    Version by str::eq: V20 => "2.0", V30 => "3.0", V31 => "3.1", V40 => "4.0"
}

/// A score, a whole number of tenths from 0 to 100.
#[derive(Clone, Copy, Debug, Default, PartialEq, Eq, PartialOrd, Ord, Hash)]
pub struct Score {
    tenths: u8,
}

impl Score {
    /// The score of a number of tenths, at most 100.
    #[must_use]
    pub const fn from_tenths(tenths: u8) -> Option<Score> {
        if tenths <= 100 {
            Some(Score { tenths })
        } else {
            None
        }
    }

    pub(crate) fn of(tenths: i32) -> Option<Score> {
        Score::from_tenths(u8::try_from(tenths).ok()?)
    }

    /// The score in tenths, which is exact.
    #[must_use]
    pub fn tenths(self) -> u8 {
        self.tenths
    }

    /// The severity of the score by the bounds of a version, which v3.0, v3.1 and v4.0 share.
    ///
    /// ```
    /// use cvss_proved::{Score, Severity, Version};
    ///
    /// let score = Score::from_tenths(98).unwrap();
    /// assert_eq!(score.severity(Version::V40), Severity::Critical);
    /// assert_eq!(score.severity(Version::V20), Severity::High);
    /// ```
    #[must_use]
    pub fn severity(self, version: Version) -> Severity {
        let number = calls::severity(version.number(), i32::from(self.tenths));
        Severity::of(number).unwrap_or(Severity::None)
    }

    /// The `f64` nearest to the score.
    #[must_use]
    pub fn value(self) -> f64 {
        f64::from(self.tenths) / 10.0
    }
}

impl From<Score> for f64 {
    fn from(score: Score) -> f64 {
        score.value()
    }
}

/// One decimal, unless a precision is given. Width, fill, alignment, sign and precision do what they
/// do for an `f64`.
///
/// ```
/// let score = cvss_proved::Score::from_tenths(98).unwrap();
/// assert_eq!(format!("{score} {score:.0} {score:.2} {score:>6}"), "9.8 10 9.80    9.8");
/// ```
impl fmt::Display for Score {
    fn fmt(&self, f: &mut fmt::Formatter<'_>) -> fmt::Result {
        match f.precision() {
            Some(_) => fmt::Display::fmt(&self.value(), f),
            None => f.pad_integral(true, "", &format!("{:.1}", self.value())),
        }
    }
}

/// Reads a score as it is printed: one or two digits, a point and one digit.
impl FromStr for Score {
    type Err = UnknownName;

    fn from_str(text: &str) -> Result<Score, UnknownName> {
        (0..=100)
            .map(|tenths| Score { tenths })
            .find(|score| score.to_string() == text)
            .ok_or(UnknownName)
    }
}

impl TryFrom<&str> for Score {
    type Error = UnknownName;

    fn try_from(text: &str) -> Result<Score, UnknownName> {
        text.parse()
    }
}

/// How severe a score is, in one word. A v2 score has only the middle three.
#[derive(Clone, Copy, Debug, PartialEq, Eq, PartialOrd, Ord, Hash)]
pub enum Severity {
    /// A score of 0.0.
    None,
    /// From 0.1 to 3.9; of v2 from 0.0.
    Low,
    /// From 4.0 to 6.9.
    Medium,
    /// From 7.0 to 8.9; of v2 to 10.0.
    High,
    /// From 9.0 to 10.0.
    Critical,
}

impl Severity {
    pub(crate) fn of(number: i32) -> Option<Severity> {
        match number {
            0 => Some(Severity::None),
            1 => Some(Severity::Low),
            2 => Some(Severity::Medium),
            3 => Some(Severity::High),
            4 => Some(Severity::Critical),
            _ => None,
        }
    }
}

named! {
    /// Reads a severity in any ASCII case.
    Severity by str::eq_ignore_ascii_case: None => "none", Low => "low", Medium => "medium",
        High => "high", Critical => "critical"
}

/// The groups of metrics that a v4.0 score counts: base, threat, environmental.
#[derive(Clone, Copy, Debug, PartialEq, Eq, Hash)]
pub enum Nomenclature {
    /// Base metrics alone.
    B,
    /// Base and environmental metrics.
    BE,
    /// Base and threat metrics.
    BT,
    /// Base, threat and environmental metrics.
    BTE,
}

impl Nomenclature {
    pub(crate) fn of(number: i32) -> Option<Nomenclature> {
        match number {
            0 => Some(Nomenclature::B),
            1 => Some(Nomenclature::BE),
            2 => Some(Nomenclature::BT),
            3 => Some(Nomenclature::BTE),
            _ => None,
        }
    }
}

named! {
    /// Reads `CVSS-B`, `CVSS-BE`, `CVSS-BT` or `CVSS-BTE`.
    Nomenclature by str::eq: B => "CVSS-B", BE => "CVSS-BE", BT => "CVSS-BT", BTE => "CVSS-BTE"
}

/// The group of a metric: v2 and v3 have temporal metrics, and v4.0 threat and supplemental ones.
#[derive(Clone, Copy, Debug, PartialEq, Eq, Hash)]
#[non_exhaustive]
pub enum Group {
    /// What does not change with time or place, and what each vector has.
    Base,
    /// How well an attack is known and remedied, in v2 and v3.
    Temporal,
    /// How well an attack is known, in v4.0.
    Threat,
    /// What an organisation knows of its own systems.
    Environmental,
    /// What changes no score, in v4.0.
    Supplemental,
}

named! {
    /// Reads a group in lower case.
    Group by str::eq: Base => "base", Temporal => "temporal", Threat => "threat",
        Environmental => "environmental", Supplemental => "supplemental"
}
