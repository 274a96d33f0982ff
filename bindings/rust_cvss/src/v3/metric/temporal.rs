//! The temporal metrics of CVSS v3.

use crate::v3::metric::{metrics, Metric, MetricType};

metrics! {
    /// Exploit Code Maturity.
    ExploitCodeMaturity E {
        NotDefined "X" 1.0, High "H" 1.0, Functional "F" 0.97, ProofOfConcept "P" 0.94, Unproven "U" 0.91
    }

    /// Report Confidence.
    ReportConfidence RC { NotDefined "X" 1.0, Confirmed "C" 1.0, Reasonable "R" 0.96, Unknown "U" 0.92 }

    /// Remediation Level.
    RemediationLevel RL {
        NotDefined "X" 1.0, Unavailable "U" 1.0, Workaround "W" 0.97, TemporaryFix "T" 0.96, OfficialFix "O" 0.95
    }
}
