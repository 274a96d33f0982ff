//! The base metrics of CVSS v3.

use crate::v3::metric::{metrics, Metric, MetricType};

metrics! {
    /// Availability Impact.
    Availability A { None "N" 0.0, Low "L" 0.22, High "H" 0.56 }

    /// Attack Complexity.
    AttackComplexity AC { High "H" 0.44, Low "L" 0.77 }

    /// Attack Vector.
    AttackVector AV { Physical "P" 0.2, Local "L" 0.55, Adjacent "A" 0.62, Network "N" 0.85 }

    /// Confidentiality Impact.
    Confidentiality C { None "N" 0.0, Low "L" 0.22, High "H" 0.56 }

    /// Integrity Impact.
    Integrity I { None "N" 0.0, Low "L" 0.22, High "H" 0.56 }

    /// Privileges Required. Its weight is that with an unchanged scope.
    PrivilegesRequired PR { High "H" 0.27, Low "L" 0.62, None "N" 0.85 }

    /// Scope. It has no weight, and `score` panics.
    Scope S { Unchanged "U" no_weight(), Changed "C" no_weight() }

    /// User Interaction.
    UserInteraction UI { Required "R" 0.62, None "N" 0.85 }
}

/// Ends the call for the weight of a scope.
fn no_weight() -> f64 {
    panic!("a scope has no weight")
}

impl PrivilegesRequired {
    /// The weight of the value with a scope that is changed or not.
    #[must_use]
    pub fn scoped_score(self, scope_change: bool) -> f64 {
        match self {
            Self::High if scope_change => 0.5,
            Self::Low if scope_change => 0.68,
            _ => self.score(),
        }
    }
}

impl Scope {
    /// Whether the scope is changed.
    #[must_use]
    pub fn is_changed(self) -> bool {
        self == Self::Changed
    }
}

impl Default for AttackComplexity {
    /// High.
    fn default() -> AttackComplexity {
        AttackComplexity::High
    }
}
