//! The metrics of CVSS v3, and their weights.

pub mod base;
pub mod environmental;
pub mod temporal;

use crate::spelled::metric_types;
use core::fmt::{Debug, Display};
use core::str::FromStr;

/// A metric of CVSS v3, as the enum of its values.
pub trait Metric: Copy + Clone + Debug + Display + Eq + FromStr + Ord {
    /// The metric.
    const TYPE: MetricType;

    /// The abbreviation of the metric.
    #[must_use]
    fn name() -> &'static str {
        Self::TYPE.name()
    }

    /// The weight of the value.
    ///
    /// # Panics
    ///
    /// Of a scope, which has no weight.
    fn score(self) -> f64;

    /// How a vector spells the value.
    fn as_str(self) -> &'static str;
}

/// Enums of the values of metrics, each value with its spelling and weight.
macro_rules! metrics {
    ($($(#[$doc:meta])* $name:ident $kind:ident { $($variant:ident $spelling:literal $weight:expr),+ })+) => {
        $(
            crate::spelled::spelled! {
                $(#[$doc])*
                $name $kind InvalidMetricV3 0 { $($variant $spelling),+ }
            }

            impl Metric for $name {
                const TYPE: MetricType = MetricType::$kind;

                fn score(self) -> f64 {
                    match self {
                        $(Self::$variant => $weight,)+
                    }
                }

                fn as_str(self) -> &'static str {
                    self.spelling()
                }
            }
        )+
    };
}

pub(crate) use metrics;

metric_types! {
    /// The metrics of CVSS v3.
    A "Availability Impact"
    AC "Attack Complexity"
    AV "Attack Vector"
    C "Confidentiality Impact"
    I "Integrity Impact"
    PR "Privileges Required"
    S "Scope"
    UI "User Interaction"
    E "Exploit Code Maturity"
    RL "Remediation Level"
    RC "Report Confidence"
    CR "Confidentiality Requirements"
    IR "Integrity Requirements"
    AR "Availability Requirements"
    MAV "Modified Attack Vector"
    MAC "Modified Attack Complexity"
    MPR "Modified Privileges Required"
    MUI "Modified User Interaction"
    MS "Modified Scope"
    MC "Modified Confidentiality"
    MI "Modified Integrity"
    MA "Modified Availability"
}
