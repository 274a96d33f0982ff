//! A vector of CVSS v2.

use crate::library::{base_score, components, listed, numbers, other_scores, read_v2, Own};
use crate::v2::metric::base::{
    AccessComplexity, AccessVector, Authentication, AvailabilityImpact, ConfidentialityImpact,
    IntegrityImpact,
};
use crate::v2::metric::environmental::{
    AvailabilityRequirement, CollateralDamagePotential, ConfidentialityRequirement,
    IntegrityRequirement, TargetDistribution,
};
use crate::v2::metric::temporal::{Exploitability, RemediationLevel, ReportConfidence};
use crate::v2::{MetricType, Score};
use crate::Error;
use core::fmt;
use core::str::FromStr;
use cvss_proved::{Exact, Numbers, Values, Version};

/// A vector of CVSS v2. One that was read has the six base metrics.
#[derive(Clone, Debug, Default, PartialEq, Eq)]
pub struct Vector {
    /// Access Vector.
    pub av: Option<AccessVector>,
    /// Access Complexity.
    pub ac: Option<AccessComplexity>,
    /// Authentication.
    pub au: Option<Authentication>,
    /// Confidentiality Impact.
    pub c: Option<ConfidentialityImpact>,
    /// Integrity Impact.
    pub i: Option<IntegrityImpact>,
    /// Availability Impact.
    pub a: Option<AvailabilityImpact>,
    /// Exploitability.
    pub e: Option<Exploitability>,
    /// Remediation Level.
    pub rl: Option<RemediationLevel>,
    /// Report Confidence.
    pub rc: Option<ReportConfidence>,
    /// Collateral Damage Potential.
    pub cdp: Option<CollateralDamagePotential>,
    /// Target Distribution.
    pub td: Option<TargetDistribution>,
    /// Confidentiality Requirement.
    pub cr: Option<ConfidentialityRequirement>,
    /// Integrity Requirement.
    pub ir: Option<IntegrityRequirement>,
    /// Availability Requirement.
    pub ar: Option<AvailabilityRequirement>,
}

components! { av ac au c i a; e rl rc cdp td cr ir ar }

impl Vector {
    /// What is pushed, without its first slash.
    fn text_of(&self, push: fn(&Vector, &mut String)) -> String {
        let mut text = String::with_capacity(Self::LONGEST);
        push(self, &mut text);
        if !text.is_empty() {
            text.remove(0);
        }
        text
    }

    /// The components, with slashes between them.
    fn text(&self) -> String {
        self.text_of(Vector::push_components)
    }

    /// The temporal and the environmental score.
    fn other_scores(&self) -> [f64; 2] {
        let text = self.text();
        other_scores(Version::V20, &text, &text)
    }

    /// The base score, not below 0. A metric that is missing weighs nothing.
    #[must_use]
    pub fn score(&self) -> Score {
        let text = self.text_of(Vector::push_base);
        Score::new(base_score(Version::V20, &text, &text))
    }

    /// The exploitability sub-score.
    #[must_use]
    pub fn exploitability(&self) -> Score {
        Score::new(self.sub_score(Numbers::exploitability))
    }

    /// The impact sub-score.
    #[must_use]
    pub fn impact(&self) -> Score {
        Score::new(self.sub_score(Numbers::impact))
    }

    /// The impact sub-score with the requirements, at most 10.
    #[must_use]
    pub fn adjusted_impact(&self) -> Score {
        Score::new(self.sub_score(Numbers::adjusted_impact))
    }

    fn sub_score(&self, of: fn(&Numbers) -> Exact) -> f64 {
        let numbers = numbers(Version::V20, &self.text());
        numbers.map_or(f64::NAN, |numbers| of(&numbers).value())
    }

    /// The environmental score, not below 0.
    #[must_use]
    pub fn environmental_score(&self) -> Score {
        Score::new(self.other_scores()[1])
    }

    /// The temporal score, not below 0.
    #[must_use]
    pub fn temporal_score(&self) -> Score {
        Score::new(self.other_scores()[0])
    }

    /// The temporal score with this impact in place of the vector's own, which may be below 0. It is no
    /// number where the impact is none, or more than 999,999 from 0.
    #[must_use]
    pub fn temporal_score_internal(&self, impact: Score) -> Score {
        let tenths = Exact::nearest(impact.value())
            .and_then(|impact| cvss_proved::temporal_with_impact(&self.text(), impact));
        Score::new(tenths.map_or(f64::NAN, |tenths| f64::from(tenths) / 10.0))
    }

    /// The metrics that the vector has, and their values.
    pub fn metrics(&self) -> impl Iterator<Item = (MetricType, &dyn fmt::Debug)> {
        listed!(
            self, AC ac, Au au, AV av, C c, I i, A a, CR cr, IR ir, AR ar, CDP cdp, TD td, E e,
            RC rc, RL rl
        )
    }
}

impl Own for Vector {
    fn of(values: &Values) -> Option<Vector> {
        let is_own = values.version() == Version::V20;
        is_own.then(|| Vector::default().filled(values))
    }
}

impl fmt::Display for Vector {
    fn fmt(&self, f: &mut fmt::Formatter<'_>) -> fmt::Result {
        f.write_str(&self.text())
    }
}

impl FromStr for Vector {
    type Err = Error;

    fn from_str(text: &str) -> Result<Vector, Error> {
        read_v2(text)
    }
}
