//! A vector of CVSS v3.0 or v3.1.

use super::score::version_of;
use crate::library::{
    base_score, components, listed, numbers, other_scores, read_with_version, Own,
};
use crate::v3::metric::base::{
    AttackComplexity, AttackVector, Availability, Confidentiality, Integrity, PrivilegesRequired,
    Scope, UserInteraction,
};
use crate::v3::metric::environmental::{
    AvailabilityRequirement, ConfidentialityRequirement, IntegrityRequirement, Modified,
    ModifiedScope,
};
use crate::v3::metric::temporal::{ExploitCodeMaturity, RemediationLevel, ReportConfidence};
use crate::v3::{MetricType, Score};
use crate::{Error, Severity, PREFIX};
use core::fmt;
use core::str::FromStr;
use cvss_proved::{Exact, Numbers, Values, Version};

/// A vector of CVSS v3.0 or v3.1, which may lack any metric.
#[derive(Clone, Debug, Default, PartialEq, Eq)]
pub struct Vector {
    /// 0 for v3.0, and 1 for v3.1, whose rules any other number has too.
    pub minor_version: usize,
    /// Attack Vector.
    pub av: Option<AttackVector>,
    /// Attack Complexity.
    pub ac: Option<AttackComplexity>,
    /// Privileges Required.
    pub pr: Option<PrivilegesRequired>,
    /// User Interaction.
    pub ui: Option<UserInteraction>,
    /// Scope.
    pub s: Option<Scope>,
    /// Confidentiality Impact.
    pub c: Option<Confidentiality>,
    /// Integrity Impact.
    pub i: Option<Integrity>,
    /// Availability Impact.
    pub a: Option<Availability>,
    /// Exploit Code Maturity.
    pub e: Option<ExploitCodeMaturity>,
    /// Remediation Level.
    pub rl: Option<RemediationLevel>,
    /// Report Confidence.
    pub rc: Option<ReportConfidence>,
    /// Modified Attack Vector.
    pub mav: Option<Modified<AttackVector>>,
    /// Confidentiality Requirement.
    pub cr: Option<ConfidentialityRequirement>,
    /// Integrity Requirement.
    pub ir: Option<IntegrityRequirement>,
    /// Availability Requirement.
    pub ar: Option<AvailabilityRequirement>,
    /// Modified Attack Complexity.
    pub mac: Option<Modified<AttackComplexity>>,
    /// Modified Privileges Required.
    pub mpr: Option<Modified<PrivilegesRequired>>,
    /// Modified User Interaction.
    pub mui: Option<Modified<UserInteraction>>,
    /// Modified Scope.
    pub ms: Option<ModifiedScope>,
    /// Modified Confidentiality.
    pub mc: Option<Modified<Confidentiality>>,
    /// Modified Integrity.
    pub mi: Option<Modified<Integrity>>,
    /// Modified Availability.
    pub ma: Option<Modified<Availability>>,
}

components! { av ac pr ui s c i a; e rl rc cr ir ar mav mac mpr mui ms mc mi ma }

impl Vector {
    /// The vector without metrics of a minor version.
    fn empty(minor_version: usize) -> Vector {
        Vector {
            minor_version,
            ..Vector::default()
        }
    }

    /// The components, each with a slash before it, after a piece.
    fn text_after(&self, piece: &str) -> String {
        let mut text = String::with_capacity(Self::LONGEST);
        text.push_str(piece);
        self.push_components(&mut text);
        text
    }

    /// The piece of the version whose rules count.
    fn piece(&self) -> &'static str {
        match self.minor_version {
            0 => "CVSS:3.0",
            _ => "CVSS:3.1",
        }
    }

    /// The temporal and the environmental score.
    fn other_scores(&self) -> [f64; 2] {
        let piece = self.piece();
        let text = self.text_after(piece);
        other_scores(version_of(self.minor_version), &text, &text[piece.len()..])
    }

    /// The base score.
    #[must_use]
    pub fn score(&self) -> Score {
        self.base_score()
    }

    /// The base score. A metric that is missing weighs nothing.
    #[must_use]
    pub fn base_score(&self) -> Score {
        let piece = self.piece();
        let mut text = String::with_capacity(Self::LONGEST);
        text.push_str(piece);
        self.push_base(&mut text);
        let version = version_of(self.minor_version);
        Score::new(base_score(version, &text, &text[piece.len()..]))
    }

    /// The temporal score.
    #[must_use]
    pub fn temporal_score(&self) -> Score {
        Score::new(self.other_scores()[0])
    }

    /// The environmental score.
    #[must_use]
    pub fn environmental_score(&self) -> Score {
        Score::new(self.other_scores()[1])
    }

    /// The exploitability sub-score.
    #[must_use]
    pub fn exploitability(&self) -> Score {
        Score::new(self.sub_score(Numbers::exploitability))
    }

    /// The impact sub-score of the base metrics, before the scope counts (ISS of section 7.1 of the v3.1
    /// specification).
    #[must_use]
    pub fn impact(&self) -> Score {
        Score::new(self.sub_score(Numbers::impact))
    }

    fn sub_score(&self, of: fn(&Numbers) -> Exact) -> f64 {
        let numbers = numbers(version_of(self.minor_version), &self.text_after(""));
        numbers.map_or(f64::NAN, |numbers| of(&numbers).value())
    }

    /// The severity of the base score.
    #[must_use]
    pub fn severity(&self) -> Severity {
        self.base_score().severity()
    }

    /// The metrics that the vector has, and their values.
    pub fn metrics(&self) -> impl Iterator<Item = (MetricType, &dyn fmt::Debug)> {
        listed!(
            self, AV av, AC ac, PR pr, UI ui, S s, C c, I i, A a, E e, RL rl, RC rc, MAV mav,
            MAC mac, MPR mpr, MUI mui, MS ms, MC mc, MI mi, CR cr, IR ir, AR ar, MA ma
        )
    }
}

impl Own for Vector {
    fn of(values: &Values) -> Option<Vector> {
        let minor_version = match values.version() {
            Version::V30 => 0,
            Version::V31 => 1,
            _ => return None,
        };
        Some(Vector::empty(minor_version).filled(values))
    }
}

impl fmt::Display for Vector {
    fn fmt(&self, f: &mut fmt::Formatter<'_>) -> fmt::Result {
        let piece = format!("{PREFIX}:3.{}", self.minor_version);
        f.write_str(&self.text_after(&piece))
    }
}

impl FromStr for Vector {
    type Err = Error;

    fn from_str(text: &str) -> Result<Vector, Error> {
        match text {
            "CVSS:3.0" => Ok(Vector::empty(0)),
            "CVSS:3.1" => Ok(Vector::empty(1)),
            text => read_with_version(text, &["CVSS:3.1", "CVSS:3.0"]),
        }
    }
}
