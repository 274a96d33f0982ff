//! The metrics of CVSS v2, and their weights.

pub mod base;
pub mod environmental;
pub mod temporal;

use crate::spelled::metric_types;
use core::fmt::{Debug, Display};
use core::str::FromStr;

/// A metric of CVSS v2, as the enum of its values.
pub trait Metric: Copy + Clone + Debug + Display + Eq + FromStr + Ord {
    /// The metric.
    const TYPE: MetricType;

    /// The abbreviation of the metric.
    #[must_use]
    fn name() -> &'static str {
        Self::TYPE.name()
    }

    /// The weight of the value.
    fn score(self) -> f64;

    /// How a vector spells the value.
    fn as_str(self) -> &'static str;
}

/// Enums of the values of metrics, each value with its spelling and weight.
macro_rules! metrics {
    ($($(#[$doc:meta])* $name:ident $kind:ident { $($variant:ident $spelling:literal $weight:literal),+ })+) => {
        use crate::v2::metric::{Metric, MetricType};

        $(
            crate::spelled::spelled! {
                $(#[$doc])*
                $name $kind InvalidMetricV2 31 { $($variant $spelling),+ }
            }

            impl Metric for $name {
                const TYPE: MetricType = MetricType::$kind;

                fn score(self) -> f64 {
                    match self {
                        $(Self::$variant => $weight,)+
                    }
                }

                fn as_str(self) -> &'static str {
                    self.spelling()
                }
            }
        )+
    };
}

pub(crate) use metrics;

metric_types! {
    /// The metrics of CVSS v2.
    A "Availability Impact"
    AC "Access Complexity"
    AV "Access Vector"
    Au "Authentication"
    C "Confidentiality Impact"
    I "Integrity Impact"
    E "Exploitability"
    RL "Remediation Level"
    RC "Report Confidence"
    CDP "Collateral Damage Potential"
    TD "Target Distribution"
    CR "Confidentiality Requirement"
    IR "Integrity Requirement"
    AR "Availability Requirement"
}
