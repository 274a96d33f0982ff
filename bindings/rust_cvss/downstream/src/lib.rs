//! An advisory with a CVSS vector, as audit tools keep it: written for the crate `cvss`.

use cvss::{Cvss, Severity};
use serde::{Deserialize, Serialize};

/// An advisory.
#[derive(Clone, Debug, PartialEq, Eq, Serialize, Deserialize)]
pub struct Advisory {
    /// Its identifier.
    pub id: String,
    /// How severe it is.
    pub cvss: Option<Cvss>,
}

impl Advisory {
    /// The severity of the advisory; `None` if it has no vector.
    #[must_use]
    pub fn severity(&self) -> Option<Severity> {
        self.cvss.as_ref().map(Cvss::severity)
    }

    /// What the vector says, one metric a line.
    #[must_use]
    pub fn listing(&self) -> Vec<String> {
        let metrics = self.cvss.iter().flat_map(Cvss::metrics);
        let line =
            |(kind, value): (cvss::MetricType, _)| format!("{}: {value:?}", kind.description());
        metrics.map(line).collect()
    }
}
