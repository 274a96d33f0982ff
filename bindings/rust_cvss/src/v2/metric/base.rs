//! The base metrics of CVSS v2.

crate::v2::metric::metrics! {
    /// Availability Impact.
    AvailabilityImpact A { None "N" 0.0, Partial "P" 0.275, Complete "C" 0.66 }

    /// Access Complexity.
    AccessComplexity AC { High "H" 0.35, Medium "M" 0.61, Low "L" 0.71 }

    /// Authentication.
    Authentication Au { Multiple "M" 0.45, Single "S" 0.56, None "N" 0.704 }

    /// Access Vector.
    AccessVector AV { Local "L" 0.395, AdjacentNetwork "A" 0.646, Network "N" 1.0 }

    /// Confidentiality Impact.
    ConfidentialityImpact C { None "N" 0.0, Partial "P" 0.275, Complete "C" 0.66 }

    /// Integrity Impact.
    IntegrityImpact I { None "N" 0.0, Partial "P" 0.275, Complete "C" 0.66 }
}
