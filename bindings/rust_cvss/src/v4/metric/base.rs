//! The base metrics of CVSS v4.0. The default of each is its most severe value.

crate::v4::metric::metrics! {
    /// Attack Complexity.
    AttackComplexity AC by Low { High "H", Low "L" }

    /// Attack Requirements.
    AttackRequirements AT by None { Present "P", None "N" }

    /// Attack Vector.
    AttackVector AV by Network { Physical "P", Local "L", Adjacent "A", Network "N" }

    /// Privileges Required.
    PrivilegesRequired PR by None { High "H", Low "L", None "N" }

    /// Availability Impact to the Subsequent System.
    AvailabilityImpactToTheSubsequentSystem SA by High { None "N", Low "L", High "H" }

    /// Confidentiality Impact to the Subsequent System.
    ConfidentialityImpactToTheSubsequentSystem SC by High { None "N", Low "L", High "H" }

    /// Integrity Impact to the Subsequent System.
    IntegrityImpactToTheSubsequentSystem SI by High { None "N", Low "L", High "H" }

    /// User Interaction.
    UserInteraction UI by None { Active "A", Passive "P", None "N" }

    /// Availability Impact to the Vulnerable System.
    AvailabilityImpactToTheVulnerableSystem VA by High { None "N", Low "L", High "H" }

    /// Confidentiality Impact to the Vulnerable System.
    ConfidentialityImpactToTheVulnerableSystem VC by High { None "N", Low "L", High "H" }

    /// Integrity Impact to the Vulnerable System.
    IntegrityImpactToTheVulnerableSystem VI by High { None "N", Low "L", High "H" }
}
