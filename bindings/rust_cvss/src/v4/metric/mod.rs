//! The metrics of CVSS v4.0.

pub mod base;
pub mod environmental;
pub mod supplemental;
pub mod threat;

use crate::spelled::metric_types;
use core::fmt::{Debug, Display};
use core::str::FromStr;

/// A metric of CVSS v4.0, as the enum of its values.
pub trait Metric: Copy + Clone + Debug + Display + Eq + FromStr + Ord + Default {
    /// The metric.
    const TYPE: MetricType;

    /// The abbreviation of the metric.
    #[must_use]
    fn name() -> &'static str {
        Self::TYPE.name()
    }

    /// How a vector spells the value.
    fn as_str(self) -> &'static str;
}

/// Enums of the values of metrics, each value with its spelling.
macro_rules! metrics {
    ($($(#[$doc:meta])* $name:ident $kind:ident by $default:ident {
        $($variant:ident $spelling:literal $(or $other:literal)?),+
    })+) => {
        use crate::v4::metric::{Metric, MetricType};

        $(
            crate::spelled::spelled! {
                $(#[$doc])*
                $name $kind InvalidMetricV4 0 { $($variant $spelling $(or $other)?),+ }
            }

            impl Default for $name {
                fn default() -> Self {
                    Self::$default
                }
            }

            impl Metric for $name {
                const TYPE: MetricType = MetricType::$kind;

                fn as_str(self) -> &'static str {
                    self.spelling()
                }
            }
        )+
    };
}

pub(crate) use metrics;

metric_types! {
    /// The metrics of CVSS v4.0.
    AC "Attack Complexity"
    AT "Attack Requirements"
    AV "Attack Vector"
    PR "Privileges Required"
    SA "Availability Impact to the Subsequent System"
    SC "Confidentiality Impact to the Subsequent System"
    SI "Integrity Impact to the Subsequent System"
    UI "User Interaction"
    VA "Availability Impact to the Vulnerable System"
    VC "Confidentiality Impact to the Vulnerable System"
    VI "Integrity Impact to the Vulnerable System"
    E "Exploit Maturity"
    AR "Availability Requirements"
    CR "Confidentiality Requirements"
    IR "Integrity Requirements"
    MAC "Modified Attack Complexity"
    MAT "Modified Attack Requirements"
    MAV "Modified Attack Vector"
    MPR "Modified Privileges Required"
    MSA "Modified Availability Impact to the Subsequent System"
    MSC "Modified Confidentiality Impact to the Subsequent System"
    MSI "Modified Integrity Impact to the Subsequent System"
    MUI "Modified User Interaction"
    MVA "Modified Availability Impact to the Vulnerable System"
    MVC "Modified Confidentiality Impact to the Vulnerable System"
    MVI "Modified Integrity Impact to the Vulnerable System"
    AU "Automatable"
    R "Recovery"
    RE "Vulnerability Response Effort"
    S "Safety"
    U "Provider Urgency"
    V "Value Density"
}
