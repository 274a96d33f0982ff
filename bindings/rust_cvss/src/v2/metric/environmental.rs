//! The environmental metrics of CVSS v2.

crate::v2::metric::metrics! {
    /// Availability Requirement.
    AvailabilityRequirement AR { Low "L" 0.5, Medium "M" 1.0, High "H" 1.51, NotDefined "ND" 1.0 }

    /// Collateral Damage Potential.
    CollateralDamagePotential CDP {
        None "N" 0.0, Low "L" 0.1, LowMedium "LM" 0.3, MediumHigh "MH" 0.4, High "H" 0.5, NotDefined "ND" 0.0
    }

    /// Confidentiality Requirement.
    ConfidentialityRequirement CR { Low "L" 0.5, Medium "M" 1.0, High "H" 1.51, NotDefined "ND" 1.0 }

    /// Integrity Requirement.
    IntegrityRequirement IR { Low "L" 0.5, Medium "M" 1.0, High "H" 1.51, NotDefined "ND" 1.0 }

    /// Target Distribution.
    TargetDistribution TD { None "N" 0.0, Low "L" 0.25, Medium "M" 0.75, High "H" 1.0, NotDefined "ND" 1.0 }
}
