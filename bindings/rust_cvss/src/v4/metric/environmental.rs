//! The environmental metrics of CVSS v4.0.

crate::v4::metric::metrics! {
    /// Availability Requirements.
    AvailabilityRequirements AR by NotDefined { NotDefined "X", Low "L", Medium "M", High "H" }

    /// Confidentiality Requirements.
    ConfidentialityRequirements CR by NotDefined { NotDefined "X", Low "L", Medium "M", High "H" }

    /// Integrity Requirements.
    IntegrityRequirements IR by NotDefined { NotDefined "X", Low "L", Medium "M", High "H" }

    /// Modified Attack Complexity.
    ModifiedAttackComplexity MAC by NotDefined { NotDefined "X", High "H", Low "L" }

    /// Modified Attack Requirements.
    ModifiedAttackRequirements MAT by NotDefined { NotDefined "X", Present "P", None "N" }

    /// Modified Attack Vector.
    ModifiedAttackVector MAV by NotDefined {
        Physical "P", Local "L", Adjacent "A", Network "N", NotDefined "X"
    }

    /// Modified Privileges Required.
    ModifiedPrivilegesRequired MPR by NotDefined { NotDefined "X", High "H", Low "L", None "N" }

    /// Modified Availability Impact to the Subsequent System.
    ModifiedAvailabilityImpactToTheSubsequentSystem MSA by NotDefined {
        NotDefined "X", Negligible "N", Low "L", High "H", Safety "S"
    }

    /// Modified Confidentiality Impact to the Subsequent System.
    ModifiedConfidentialityImpactToTheSubsequentSystem MSC by NotDefined {
        NotDefined "X", Negligible "N", Low "L", High "H"
    }

    /// Modified Integrity Impact to the Subsequent System.
    ModifiedIntegrityImpactToTheSubsequentSystem MSI by NotDefined {
        NotDefined "X", Negligible "N", Low "L", High "H", Safety "S"
    }

    /// Modified User Interaction.
    ModifiedUserInteraction MUI by NotDefined { NotDefined "X", Active "A", Passive "P", None "N" }

    /// Modified Availability Impact to the Vulnerable System.
    ModifiedAvailabilityImpactToTheVulnerableSystem MVA by NotDefined {
        NotDefined "X", None "N", Low "L", High "H"
    }

    /// Modified Confidentiality Impact to the Vulnerable System.
    ModifiedConfidentialityImpactToTheVulnerableSystem MVC by NotDefined {
        NotDefined "X", None "N", Low "L", High "H"
    }

    /// Modified Integrity Impact to the Vulnerable System.
    ModifiedIntegrityImpactToTheVulnerableSystem MVI by NotDefined {
        NotDefined "X", None "N", Low "L", High "H"
    }
}
