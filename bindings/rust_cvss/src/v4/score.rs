//! A score of CVSS v4.0, and its nomenclature.

use super::Vector;
use crate::{Error, Severity};
use core::fmt;
use core::str::FromStr;

/// A score of CVSS v4.0, with the groups of metrics that it rests on.
#[derive(Clone, Debug, PartialEq)]
pub struct Score {
    value: f64,
    nomenclature: Nomenclature,
}

impl Score {
    /// The score of this number.
    #[must_use]
    pub fn new(value: f64, nomenclature: Nomenclature) -> Score {
        Score {
            value,
            nomenclature,
        }
    }

    /// The number.
    #[must_use]
    pub fn value(self) -> f64 {
        self.value
    }

    /// The severity.
    #[must_use]
    pub fn severity(self) -> Severity {
        Severity::since_v3(self.value)
    }
}

impl From<&Vector> for Score {
    /// The score of a vector, as `Vector::score`.
    fn from(vector: &Vector) -> Score {
        vector.score()
    }
}

impl fmt::Display for Score {
    fn fmt(&self, f: &mut fmt::Formatter<'_>) -> fmt::Result {
        write!(f, "{:.1} ({})", self.value, self.nomenclature)
    }
}

impl From<Score> for f64 {
    fn from(score: Score) -> f64 {
        score.value
    }
}

impl From<Score> for Severity {
    fn from(score: Score) -> Severity {
        score.severity()
    }
}

/// Which groups of metrics a score rests on.
#[derive(Clone, Debug, PartialEq, Eq)]
pub enum Nomenclature {
    /// Base metrics.
    CvssB,
    /// Base and environmental metrics.
    CvssBE,
    /// Base and threat metrics.
    CvssBT,
    /// Base, threat and environmental metrics.
    CvssBTE,
}

impl Nomenclature {
    const ALL: [Nomenclature; 4] = [
        Nomenclature::CvssB,
        Nomenclature::CvssBE,
        Nomenclature::CvssBT,
        Nomenclature::CvssBTE,
    ];

    fn name(&self) -> &'static str {
        match self {
            Nomenclature::CvssB => "CVSS-B",
            Nomenclature::CvssBE => "CVSS-BE",
            Nomenclature::CvssBT => "CVSS-BT",
            Nomenclature::CvssBTE => "CVSS-BTE",
        }
    }
}

impl fmt::Display for Nomenclature {
    fn fmt(&self, f: &mut fmt::Formatter<'_>) -> fmt::Result {
        f.write_str(self.name())
    }
}

impl FromStr for Nomenclature {
    type Err = Error;

    fn from_str(name: &str) -> Result<Nomenclature, Error> {
        let mut all = Nomenclature::ALL.into_iter();
        all.find(|nomenclature| nomenclature.name() == name)
            .ok_or_else(|| Error::InvalidNomenclatureV4 {
                nomenclature: name.to_owned(),
            })
    }
}

impl From<&Vector> for Nomenclature {
    fn from(vector: &Vector) -> Nomenclature {
        vector.nomenclature()
    }
}
