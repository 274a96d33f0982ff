//! CVSS vectors of v2, v3.0, v3.1 and v4.0, with the interface of the crate `cvss` 3.0.0.
//!
//! Each vector is read, each score computed and each error in a vector found by the library of
//! `cvss_proved`, which is proved. A score or sub-score is the nearest `f64` of the exact one.
//!
//! ```
//! use cvss::{Cvss, Severity};
//!
//! let cvss: Cvss = "CVSS:3.1/AV:N/AC:L/PR:N/UI:N/S:U/C:H/I:H/A:H".parse()?;
//! assert_eq!(cvss.score(), 9.8);
//! assert_eq!(cvss.severity(), Severity::Critical);
//!
//! let vector: cvss::v2::Vector = "AV:N/AC:L/Au:N/C:N/I:N/A:C".parse()?;
//! assert_eq!(vector.impact().roundup().value(), 6.9);
//!
//! let error = "CVSS:3.1/AV:N/AV:L".parse::<Cvss>().unwrap_err();
//! assert_eq!(error.to_string(), "duplicate CVSSv3 AV (Attack Vector) metric");
//! # Ok::<(), cvss::Error>(())
//! ```
//!
//! With the feature `serde`, [`Cvss`], [`Severity`] and the vectors are `Serialize` and `Deserialize`, as
//! strings. The features `v2`, `v3` and `v4` are the modules of these names; all three are on by default.
#![forbid(unsafe_code)]
// Without a version there is little to do.
#![cfg_attr(
    not(any(feature = "v2", feature = "v3", feature = "v4")),
    allow(unused)
)]
#![deny(missing_docs)]

mod error;
mod library;
mod rejecting;
#[cfg(feature = "serde")]
mod serialized;
mod severity;
mod spelled;
#[cfg(feature = "v2")]
pub mod v2;
#[cfg(feature = "v3")]
pub mod v3;
#[cfg(feature = "v4")]
pub mod v4;

pub use error::Error;
pub use severity::Severity;

use core::fmt;
use core::str::FromStr;
use cvss_proved::{Values, Version};
use library::Own;

/// What a vector of v3 or v4.0 begins with.
pub const PREFIX: &str = "CVSS";

/// A vector of any version.
#[derive(Clone, Debug, PartialEq, Eq)]
#[non_exhaustive]
pub enum Cvss {
    /// Of CVSS v2.
    #[cfg(feature = "v2")]
    CvssV20(v2::Vector),
    /// Of CVSS v3.0.
    #[cfg(feature = "v3")]
    CvssV30(v3::Vector),
    /// Of CVSS v3.1.
    #[cfg(feature = "v3")]
    CvssV31(v3::Vector),
    /// Of CVSS v4.0.
    #[cfg(feature = "v4")]
    CvssV40(v4::Vector),
}

impl Cvss {
    /// The score that is published: in v2 and v3 the base score.
    ///
    /// # Panics
    ///
    /// Of a `v4::Vector` that lacks base metrics. One that was read has them all.
    #[must_use]
    pub fn score(&self) -> f64 {
        match *self {
            #[cfg(feature = "v2")]
            Cvss::CvssV20(ref vector) => vector.score().value(),
            #[cfg(feature = "v3")]
            Cvss::CvssV30(ref vector) | Cvss::CvssV31(ref vector) => vector.score().value(),
            #[cfg(feature = "v4")]
            Cvss::CvssV40(ref vector) => vector.score().value(),
        }
    }

    /// The severity of the score.
    ///
    /// # Panics
    ///
    /// Of a `v4::Vector` that lacks base metrics.
    #[must_use]
    pub fn severity(&self) -> Severity {
        match *self {
            #[cfg(feature = "v2")]
            Cvss::CvssV20(ref vector) => vector.score().severity(),
            #[cfg(feature = "v3")]
            Cvss::CvssV30(ref vector) | Cvss::CvssV31(ref vector) => vector.score().severity(),
            #[cfg(feature = "v4")]
            Cvss::CvssV40(ref vector) => vector.score().severity(),
        }
    }

    /// The metrics that the vector has, and their values.
    #[must_use]
    pub fn metrics(&self) -> Box<dyn Iterator<Item = (MetricType, &dyn fmt::Debug)> + '_> {
        match *self {
            #[cfg(feature = "v2")]
            Cvss::CvssV20(ref vector) => Box::new(
                vector
                    .metrics()
                    .map(|(kind, value)| (MetricType::V2(kind), value)),
            ),
            #[cfg(feature = "v3")]
            Cvss::CvssV30(ref vector) | Cvss::CvssV31(ref vector) => Box::new(
                vector
                    .metrics()
                    .map(|(kind, value)| (MetricType::V3(kind), value)),
            ),
            #[cfg(feature = "v4")]
            Cvss::CvssV40(ref vector) => Box::new(
                vector
                    .metrics()
                    .map(|(kind, value)| (MetricType::V4(kind), value)),
            ),
        }
    }
}

impl fmt::Display for Cvss {
    fn fmt(&self, f: &mut fmt::Formatter<'_>) -> fmt::Result {
        match *self {
            #[cfg(feature = "v2")]
            Cvss::CvssV20(ref vector) => vector.fmt(f),
            #[cfg(feature = "v3")]
            Cvss::CvssV30(ref vector) | Cvss::CvssV31(ref vector) => vector.fmt(f),
            #[cfg(feature = "v4")]
            Cvss::CvssV40(ref vector) => vector.fmt(f),
        }
    }
}

impl FromStr for Cvss {
    type Err = Error;

    fn from_str(text: &str) -> Result<Cvss, Error> {
        let has_all = cfg!(all(feature = "v2", feature = "v3", feature = "v4"));
        let left_out = if has_all { None } else { left_out(text) };
        if let Some(error) = left_out {
            return Err(error);
        }
        let own = Values::with_incomplete(text, |values| match values.version() {
            #[cfg(feature = "v2")]
            Version::V20 => v2::Vector::of(values).map(Cvss::CvssV20),
            #[cfg(feature = "v3")]
            Version::V30 => v3::Vector::of(values).map(Cvss::CvssV30),
            #[cfg(feature = "v3")]
            Version::V31 => v3::Vector::of(values).map(Cvss::CvssV31),
            #[cfg(feature = "v4")]
            Version::V40 => v4::Vector::of(values).map(Cvss::CvssV40),
            #[allow(unreachable_patterns)]
            _ => None,
        });
        own.flatten().ok_or_else(|| library::rejected(text))
    }
}

/// Why a text is rejected that is to be read by a version whose feature is off.
fn left_out(text: &str) -> Option<Error> {
    let (first, _) = text.split_once('/')?;
    let (prefix, version) = first.split_once(':')?;
    let is_off = (cfg!(not(feature = "v3")) && ["3.0", "3.1"].contains(&version))
        || (cfg!(not(feature = "v4")) && version == "4.0");
    if prefix == PREFIX && is_off {
        let version = version.to_owned();
        return Some(Error::UnsupportedVersion { version });
    }
    let is_v2 = !version.contains('.');
    (is_v2 && cfg!(not(feature = "v2"))).then(|| Error::InvalidComponent {
        component: first.to_owned(),
    })
}

/// A metric of any version.
#[derive(Clone, Copy, Debug, PartialEq, Eq)]
#[non_exhaustive]
pub enum MetricType {
    /// Of CVSS v2.
    #[cfg(feature = "v2")]
    V2(v2::MetricType),
    /// Of CVSS v3.
    #[cfg(feature = "v3")]
    V3(v3::MetricType),
    /// Of CVSS v4.0.
    #[cfg(feature = "v4")]
    V4(v4::MetricType),
}

impl MetricType {
    /// The abbreviation.
    #[must_use]
    pub fn name(self) -> &'static str {
        match self {
            #[cfg(feature = "v2")]
            MetricType::V2(kind) => kind.name(),
            #[cfg(feature = "v3")]
            MetricType::V3(kind) => kind.name(),
            #[cfg(feature = "v4")]
            MetricType::V4(kind) => kind.name(),
        }
    }

    /// The name in words.
    #[must_use]
    pub fn description(self) -> &'static str {
        match self {
            #[cfg(feature = "v2")]
            MetricType::V2(kind) => kind.description(),
            #[cfg(feature = "v3")]
            MetricType::V3(kind) => kind.description(),
            #[cfg(feature = "v4")]
            MetricType::V4(kind) => kind.description(),
        }
    }
}
