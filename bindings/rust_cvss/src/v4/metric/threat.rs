//! The threat metric of CVSS v4.0.

crate::v4::metric::metrics! {
    /// Exploit Maturity.
    ExploitMaturity E by NotDefined { NotDefined "X", Unreported "U", ProofOfConcept "P", Attacked "A" }
}
