//! Why a text is rejected.

use core::fmt;

#[cfg(feature = "v2")]
use crate::v2;
#[cfg(feature = "v3")]
use crate::v3;
#[cfg(feature = "v4")]
use crate::v4;

/// Why a text is rejected.
#[derive(Clone, Debug, PartialEq, Eq)]
#[non_exhaustive]
pub enum Error {
    /// A component has no colon, or more than one.
    InvalidComponent {
        /// The component.
        component: String,
    },
    /// A metric of CVSS v3 has no such value.
    #[cfg(feature = "v3")]
    InvalidMetricV3 {
        /// The metric; of a modified metric the base metric.
        metric_type: v3::metric::MetricType,
        /// The value.
        value: String,
    },
    /// A metric of CVSS v2 has no such value.
    #[cfg(feature = "v2")]
    InvalidMetricV2 {
        /// The metric.
        metric_type: v2::MetricType,
        /// The value.
        value: String,
    },
    /// A metric of CVSS v2 occurs twice.
    #[cfg(feature = "v2")]
    DuplicateMetricV2 {
        /// The metric.
        metric_type: v2::MetricType,
    },
    /// A metric of CVSS v3 occurs twice.
    #[cfg(feature = "v3")]
    DuplicateMetricV3 {
        /// The metric.
        metric_type: v3::metric::MetricType,
    },
    /// A mandatory metric of CVSS v2 is missing.
    #[cfg(feature = "v2")]
    MissingMandatoryMetricV2 {
        /// The metric.
        metric_type: v2::MetricType,
    },
    /// A metric of CVSS v4.0 has no such value.
    #[cfg(feature = "v4")]
    InvalidMetricV4 {
        /// The metric.
        metric_type: v4::MetricType,
        /// The value.
        value: String,
    },
    /// A mandatory metric of CVSS v4.0 is missing.
    #[cfg(feature = "v4")]
    MissingMandatoryMetricV4 {
        /// The metric.
        metric_type: v4::MetricType,
    },
    /// A metric of CVSS v4.0 occurs twice.
    #[cfg(feature = "v4")]
    DuplicateMetricV4 {
        /// The metric.
        metric_type: v4::MetricType,
    },
    /// There is no such nomenclature of CVSS v4.0.
    #[cfg(feature = "v4")]
    InvalidNomenclatureV4 {
        /// The name.
        nomenclature: String,
    },
    /// A text with a version does not begin with `CVSS`.
    InvalidPrefix {
        /// What it begins with.
        prefix: String,
    },
    /// There is no such severity.
    InvalidSeverity {
        /// The name.
        name: String,
    },
    /// The version has no metric of this name.
    UnknownMetric {
        /// The name.
        name: String,
    },
    /// The version is not supported.
    UnsupportedVersion {
        /// The version.
        version: String,
    },
}

/// Writes what is wrong with a metric of a version: `what` is before its name, and `rest` after it.
macro_rules! of_metric {
    ($f:ident, $what:literal, $metric:ident, $rest:literal $(, $value:ident)?) => {
        write!($f, concat!($what, " {} ({}) metric", $rest), $metric.name(), $metric.description() $(, $value)?)
    };
}

impl fmt::Display for Error {
    fn fmt(&self, f: &mut fmt::Formatter<'_>) -> fmt::Result {
        match self {
            Error::InvalidComponent { component } => {
                write!(f, "invalid CVSS metric group component: `{component}`")
            }
            #[cfg(feature = "v3")]
            Error::InvalidMetricV3 { metric_type, value } => {
                of_metric!(f, "invalid CVSSv3", metric_type, ": `{}`", value)
            }
            #[cfg(feature = "v2")]
            Error::InvalidMetricV2 { metric_type, value } => {
                of_metric!(f, "invalid CVSSv2", metric_type, ": `{}`", value)
            }
            #[cfg(feature = "v2")]
            Error::DuplicateMetricV2 { metric_type } => {
                of_metric!(f, "duplicate CVSSv2", metric_type, "")
            }
            #[cfg(feature = "v3")]
            Error::DuplicateMetricV3 { metric_type } => {
                of_metric!(f, "duplicate CVSSv3", metric_type, "")
            }
            #[cfg(feature = "v2")]
            Error::MissingMandatoryMetricV2 { metric_type } => {
                of_metric!(f, "missing mandatory CVSSv2", metric_type, "")
            }
            #[cfg(feature = "v4")]
            Error::InvalidMetricV4 { metric_type, value } => {
                of_metric!(f, "invalid CVSSv4", metric_type, ": `{}`", value)
            }
            #[cfg(feature = "v4")]
            Error::DuplicateMetricV4 { metric_type } => {
                of_metric!(f, "duplicate CVSSv4", metric_type, "")
            }
            #[cfg(feature = "v4")]
            Error::MissingMandatoryMetricV4 { metric_type } => {
                of_metric!(f, "missing mandatory CVSSv4", metric_type, "")
            }
            #[cfg(feature = "v4")]
            Error::InvalidNomenclatureV4 { nomenclature } => {
                write!(f, "invalid CVSSv4 nomenclature: `{nomenclature}`")
            }
            Error::InvalidPrefix { prefix } => {
                write!(f, "invalid CVSS string prefix: `{prefix}`")
            }
            Error::InvalidSeverity { name } => {
                write!(f, "invalid CVSS Qualitative Severity Rating: `{name}`")
            }
            Error::UnknownMetric { name } => write!(f, "unknown CVSS metric name: `{name}`"),
            Error::UnsupportedVersion { version } => {
                write!(f, "unsupported CVSS version: {version}")
            }
        }
    }
}

impl std::error::Error for Error {}
