//! A vector of CVSS v4.0.

use crate::library::{components, listed, read_with_version, Own};
use crate::v4::metric::base::{
    AttackComplexity, AttackRequirements, AttackVector, AvailabilityImpactToTheSubsequentSystem,
    AvailabilityImpactToTheVulnerableSystem, ConfidentialityImpactToTheSubsequentSystem,
    ConfidentialityImpactToTheVulnerableSystem, IntegrityImpactToTheSubsequentSystem,
    IntegrityImpactToTheVulnerableSystem, PrivilegesRequired, UserInteraction,
};
use crate::v4::metric::environmental::{
    AvailabilityRequirements, ConfidentialityRequirements, IntegrityRequirements,
    ModifiedAttackComplexity, ModifiedAttackRequirements, ModifiedAttackVector,
    ModifiedAvailabilityImpactToTheSubsequentSystem,
    ModifiedAvailabilityImpactToTheVulnerableSystem,
    ModifiedConfidentialityImpactToTheSubsequentSystem,
    ModifiedConfidentialityImpactToTheVulnerableSystem,
    ModifiedIntegrityImpactToTheSubsequentSystem, ModifiedIntegrityImpactToTheVulnerableSystem,
    ModifiedPrivilegesRequired, ModifiedUserInteraction,
};
use crate::v4::metric::supplemental::{
    Automatable, ProviderUrgency, Recovery, Safety, ValueDensity, VulnerabilityResponseEffort,
};
use crate::v4::metric::threat::ExploitMaturity;
use crate::v4::{MetricType, Nomenclature, Score};
use crate::{Error, PREFIX};
use core::fmt;
use core::str::FromStr;
use cvss_proved::Values;

/// A vector of CVSS v4.0. One that was read has the eleven base metrics; `Vector::default()` has none.
#[derive(Clone, Debug, Default, PartialEq, Eq)]
pub struct Vector {
    /// 0.
    pub minor_version: usize,
    ac: Option<AttackComplexity>,
    at: Option<AttackRequirements>,
    av: Option<AttackVector>,
    pr: Option<PrivilegesRequired>,
    sa: Option<AvailabilityImpactToTheSubsequentSystem>,
    sc: Option<ConfidentialityImpactToTheSubsequentSystem>,
    si: Option<IntegrityImpactToTheSubsequentSystem>,
    ui: Option<UserInteraction>,
    va: Option<AvailabilityImpactToTheVulnerableSystem>,
    vc: Option<ConfidentialityImpactToTheVulnerableSystem>,
    vi: Option<IntegrityImpactToTheVulnerableSystem>,
    e: Option<ExploitMaturity>,
    ar: Option<AvailabilityRequirements>,
    cr: Option<ConfidentialityRequirements>,
    ir: Option<IntegrityRequirements>,
    mac: Option<ModifiedAttackComplexity>,
    mat: Option<ModifiedAttackRequirements>,
    mav: Option<ModifiedAttackVector>,
    mpr: Option<ModifiedPrivilegesRequired>,
    msa: Option<ModifiedAvailabilityImpactToTheSubsequentSystem>,
    msc: Option<ModifiedConfidentialityImpactToTheSubsequentSystem>,
    msi: Option<ModifiedIntegrityImpactToTheSubsequentSystem>,
    mui: Option<ModifiedUserInteraction>,
    mva: Option<ModifiedAvailabilityImpactToTheVulnerableSystem>,
    mvc: Option<ModifiedConfidentialityImpactToTheVulnerableSystem>,
    mvi: Option<ModifiedIntegrityImpactToTheVulnerableSystem>,
    au: Option<Automatable>,
    r: Option<Recovery>,
    re: Option<VulnerabilityResponseEffort>,
    s: Option<Safety>,
    u: Option<ProviderUrgency>,
    v: Option<ValueDensity>,
    /// The tenths of the score and the nomenclature, as the library gave them when it read the vector.
    scored: Option<(u8, Nomenclature)>,
}

components! {
    av ac at pr ui vc vi va sc si sa;
    e cr ir ar mav mac mat mpr mui mvc mvi mva msc msi msa s au r v re u
}

impl Vector {
    /// The score.
    ///
    /// # Panics
    ///
    /// If the vector lacks base metrics. One that was read has them all; `Vector::default()` has none.
    #[must_use]
    pub fn score(&self) -> Score {
        let Some((tenths, nomenclature)) = &self.scored else {
            panic!("a CVSSv4 vector without its base metrics has no score")
        };
        Score::new(f64::from(*tenths) / 10.0, nomenclature.clone())
    }

    /// Which groups of metrics the score rests on.
    #[must_use]
    pub fn nomenclature(&self) -> Nomenclature {
        let scored = self.scored.as_ref();
        scored.map_or(Nomenclature::CvssB, |(_, nomenclature)| {
            nomenclature.clone()
        })
    }

    /// The metrics that the vector has, and their values.
    pub fn metrics(&self) -> impl Iterator<Item = (MetricType, &dyn fmt::Debug)> {
        listed!(
            self, AC ac, AT at, AV av, PR pr, SA sa, SC sc, SI si, UI ui, VA va, VC vc, VI vi, E e,
            AR ar, CR cr, IR ir, MAC mac, MAT mat, MAV mav, MPR mpr, MSA msa, MSC msc, MSI msi,
            MUI mui, MVA mva, MVC mvc, MVI mvi, AU au, R r, RE re, S s, U u, V v
        )
    }
}

impl Own for Vector {
    fn of(values: &Values) -> Option<Vector> {
        let nomenclature = match values.nomenclature()? {
            cvss_proved::Nomenclature::B => Nomenclature::CvssB,
            cvss_proved::Nomenclature::BE => Nomenclature::CvssBE,
            cvss_proved::Nomenclature::BT => Nomenclature::CvssBT,
            cvss_proved::Nomenclature::BTE => Nomenclature::CvssBTE,
        };
        let mut vector = Vector::default().filled(values);
        vector.scored = Some((values.score().tenths(), nomenclature));
        Some(vector)
    }
}

impl fmt::Display for Vector {
    fn fmt(&self, f: &mut fmt::Formatter<'_>) -> fmt::Result {
        let mut text = String::with_capacity(Self::LONGEST);
        self.push_components(&mut text);
        write!(f, "{PREFIX}:4.{}{text}", self.minor_version)
    }
}

impl FromStr for Vector {
    type Err = Error;

    fn from_str(text: &str) -> Result<Vector, Error> {
        // The piece of the version alone lacks what a supplemental metric does not bring.
        let text = match text {
            "CVSS:4.0" => "CVSS:4.0/U:X",
            text => text,
        };
        read_with_version(text, &["CVSS:4.0"])
    }
}
