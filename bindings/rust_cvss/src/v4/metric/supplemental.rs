//! The supplemental metrics of CVSS v4.0, which no score counts.

crate::v4::metric::metrics! {
    /// Automatable.
    Automatable AU by NotDefined { NotDefined "X", Yes "Y", No "N" }

    /// Recovery.
    Recovery R by NotDefined { NotDefined "X", Automatic "A", User "U", Irrecoverable "I" }

    /// Vulnerability Response Effort.
    VulnerabilityResponseEffort RE by NotDefined { NotDefined "X", Low "L", Moderate "M", High "H" }

    /// Safety.
    Safety S by NotDefined { NotDefined "X", Present "P", Negligible "N" }

    /// Provider Urgency. A value is read as it is printed, and in capitals.
    ProviderUrgency U by NotDefined {
        NotDefined "X", Red "Red" or "RED", Amber "Amber" or "AMBER", Green "Green" or "GREEN",
        Clear "Clear" or "CLEAR"
    }

    /// Value Density.
    ValueDensity V by NotDefined { NotDefined "X", Diffuse "D", Concentrated "C" }
}
