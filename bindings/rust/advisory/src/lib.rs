//! An advisory that derives its JSON.

use cvss_proved::{Cvss, Nomenclature, Score, Severity, Version};
use serde::{Deserialize, Serialize};

/// What a database keeps of a vulnerability. A vector that lacks base metrics is rejected.
#[derive(Clone, Debug, PartialEq, Serialize, Deserialize)]
pub struct Advisory {
    /// The name of the vulnerability.
    pub id: String,
    /// Its vector, where there is one.
    pub cvss: Option<Cvss>,
    /// Its score.
    pub score: Option<Score>,
    /// The severity of the score.
    pub severity: Severity,
    /// The version of the standard.
    pub version: Version,
    /// Which groups of metrics the score counts.
    pub nomenclature: Option<Nomenclature>,
}

/// A vector that may lack base metrics, as it is in a draft of an advisory.
#[derive(Clone, Debug, PartialEq, Serialize, Deserialize)]
#[serde(transparent)]
pub struct Draft(#[serde(with = "cvss_proved::allow_incomplete")] pub Cvss);
