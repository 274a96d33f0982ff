//! The names and words of metrics and of their values.

use crate::table::{V20, V31, V40};
use crate::{Group, Version};

/// A value of a metric.
#[derive(Clone, Copy, Debug, PartialEq, Eq, Hash)]
#[non_exhaustive]
pub struct MetricValue {
    /// How a vector spells it, such as `N`.
    pub value: &'static str,
    /// Its name in words, such as `Network`.
    pub title: &'static str,
    /// A sentence that says what it means.
    pub description: &'static str,
}

/// A metric of a version.
#[derive(Clone, Copy, Debug, PartialEq, Eq, Hash)]
#[non_exhaustive]
pub struct MetricType {
    /// The abbreviation, such as `AV`.
    pub name: &'static str,
    /// The name in words, such as `Attack Vector`.
    pub title: &'static str,
    /// The group that it belongs to.
    pub group: Group,
    /// Whether FIRST's document of the version requires it: true for the base metrics.
    pub is_mandatory: bool,
    /// A question that a form asks.
    pub question: &'static str,
    /// The values, in the order in which a form offers them.
    pub values: &'static [MetricValue],
}

pub(crate) const fn value(
    value: &'static str,
    title: &'static str,
    description: &'static str,
) -> MetricValue {
    MetricValue {
        value,
        title,
        description,
    }
}

pub(crate) const fn metric(
    name: &'static str,
    title: &'static str,
    group: Group,
    is_mandatory: bool,
    question: &'static str,
    values: &'static [MetricValue],
) -> MetricType {
    MetricType {
        name,
        title,
        group,
        is_mandatory,
        question,
        values,
    }
}

/// The metrics of a version, in the order in which a vector prints them: what a form offers.
///
/// ```
/// use cvss_proved::{metrics, Version};
///
/// let attack_vector = &metrics(Version::V31)[0];
/// assert_eq!((attack_vector.name, attack_vector.title), ("AV", "Attack Vector"));
/// assert_eq!((attack_vector.values[0].value, attack_vector.values[0].title), ("N", "Network"));
/// ```
#[must_use]
pub fn metrics(version: Version) -> &'static [MetricType] {
    match version {
        Version::V20 => V20,
        Version::V30 | Version::V31 => V31,
        Version::V40 => V40,
    }
}
