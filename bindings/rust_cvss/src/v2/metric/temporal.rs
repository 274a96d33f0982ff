//! The temporal metrics of CVSS v2.

crate::v2::metric::metrics! {
    /// Exploitability.
    Exploitability E {
        Unproven "U" 0.85, ProofOfConcept "POC" 0.9, Functional "F" 0.95, High "H" 1.0, NotDefined "ND" 1.0
    }

    /// Report Confidence.
    ReportConfidence RC { Unconfirmed "UC" 0.9, Uncorroborated "UR" 0.95, Confirmed "C" 1.0, NotDefined "ND" 1.0 }

    /// Remediation Level.
    RemediationLevel RL {
        OfficialFix "OF" 0.87, TemporaryFix "TF" 0.9, Workaround "W" 0.95, Unavailable "U" 1.0, NotDefined "ND" 1.0
    }
}
