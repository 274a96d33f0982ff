//! The metrics of a vector, and vectors made of metrics.

use crate::calls;
use crate::library::{CvssMetric, ALLOW_INCOMPLETE};
use crate::words::{metrics, MetricType, MetricValue};
use crate::{Cvss, ParseError, Version};

/// A metric of a vector, by its abbreviation, and the spelling of the vector's value for it.
#[derive(Clone, Copy, Debug, PartialEq, Eq, Hash)]
pub struct Metric {
    name: [u8; 8],
    value: [u8; 8],
}

impl Metric {
    fn of(metric: &CvssMetric) -> Metric {
        Metric {
            name: metric.name,
            value: metric.value,
        }
    }

    /// The abbreviation, such as `MSI`.
    #[must_use]
    pub fn name(&self) -> &str {
        field_text(&self.name)
    }

    /// The spelling of the value, such as `S`.
    #[must_use]
    pub fn value(&self) -> &str {
        field_text(&self.value)
    }
}

/// What is before the bytes 0 of a field.
pub(crate) fn field_text(field: &[u8; 8]) -> &str {
    let end = field.iter().position(|byte| *byte == 0).unwrap_or(8);
    std::str::from_utf8(&field[..end]).unwrap_or_default()
}

impl Cvss {
    /// The vector of a version with these metrics, as pairs of name and value, in any order.
    ///
    /// # Errors
    ///
    /// The first metric that is rejected; otherwise the first mandatory one that is missing.
    ///
    /// ```
    /// use cvss_proved::{Cvss, Version};
    ///
    /// let metrics = [("A", "C"), ("I", "N"), ("C", "N"), ("Au", "N"), ("AC", "L"), ("AV", "N")];
    /// let cvss = Cvss::from_metrics(Version::V20, &metrics)?;
    /// assert_eq!(cvss.as_str(), "AV:N/AC:L/Au:N/C:N/I:N/A:C");
    /// # Ok::<(), cvss_proved::ParseError>(())
    /// ```
    pub fn from_metrics(version: Version, metrics: &[(&str, &str)]) -> Result<Cvss, ParseError> {
        made_from(version, metrics, 0)
    }

    /// [`Cvss::from_metrics`], but a v3 vector may lack base metrics.
    ///
    /// # Errors
    ///
    /// The first metric that is rejected; otherwise, except in v3, the first mandatory one that is
    /// missing.
    pub fn from_metrics_incomplete(
        version: Version,
        metrics: &[(&str, &str)],
    ) -> Result<Cvss, ParseError> {
        made_from(version, metrics, ALLOW_INCOMPLETE)
    }

    /// The name and the value of each metric that the vector has, in the order of the canonical
    /// text.
    ///
    /// ```
    /// let cvss = cvss_proved::Cvss::parse("CVSS:3.1/AC:L/PR:N/UI:N/S:U/C:H/I:H/A:H/AV:N")?;
    /// let metrics = cvss.metrics();
    /// assert_eq!((metrics[0].name(), metrics[0].value()), ("AV", "N"));
    /// assert_eq!((metrics[4].name(), metrics[4].value()), ("S", "U"));
    /// # Ok::<(), cvss_proved::ParseError>(())
    /// ```
    #[must_use]
    pub fn metrics(&self) -> Vec<Metric> {
        let metrics = calls::metrics(self.as_str().as_bytes());
        metrics.iter().map(Metric::of).collect()
    }

    /// Each metric that the vector has and its value, with their names in words, in the order of the
    /// canonical text.
    ///
    /// ```
    /// let cvss = cvss_proved::Cvss::parse("AV:N/AC:L/Au:N/C:N/I:N/A:C")?;
    /// let (metric, value) = cvss.described()[0];
    /// assert_eq!((metric.title, value.title), ("Access Vector", "Network"));
    /// # Ok::<(), cvss_proved::ParseError>(())
    /// ```
    #[must_use]
    pub fn described(&self) -> Vec<(&'static MetricType, &'static MetricValue)> {
        let types = metrics(self.version());
        let described = |metric: &Metric| {
            let own = types.iter().find(|own| own.name == metric.name())?;
            let mut values = own.values.iter();
            Some((own, values.find(|value| value.value == metric.value())?))
        };
        self.metrics().iter().filter_map(described).collect()
    }

    /// The vector with these metrics, as pairs of name and value, which replace its own or are added.
    /// Any metric of the version can be set. In v3 and v4.0 names and values may be in any ASCII case.
    /// `X` and `ND` are values like others: they do not remove a metric.
    ///
    /// # Errors
    ///
    /// The first metric that is rejected.
    ///
    /// ```
    /// let text = "CVSS:4.0/AV:N/AC:L/AT:N/PR:N/UI:N/VC:H/VI:H/VA:H/SC:N/SI:N/SA:N";
    /// let cvss = cvss_proved::Cvss::parse(text)?;
    /// assert_eq!(cvss.with_metrics(&[("E", "P")])?.score().tenths(), 89);
    /// assert_eq!(cvss.with_metrics(&[("AV", "P"), ("E", "U")])?.score().tenths(), 40);
    /// let error = cvss.with_metrics(&[("AV", "P"), ("E", "Q")]).unwrap_err();
    /// assert_eq!((error.value(), error.index()), (Some("Q"), Some(1)));
    /// # Ok::<(), cvss_proved::ParseError>(())
    /// ```
    pub fn with_metrics(&self, metrics: &[(&str, &str)]) -> Result<Cvss, ParseError> {
        let text = calls::with_metrics(self.as_str().as_bytes(), joined(metrics).as_bytes());
        of_metrics(text, metrics)
    }

    /// The vector without the metrics that are not defined (`X`, in v2 `ND`): it has the same
    /// scores. A v3 vector that has no others is returned as it is. The nomenclature of v4.0 may
    /// change, since it counts a metric that is given as `X`.
    ///
    /// ```
    /// let cvss = cvss_proved::Cvss::parse("AV:N/AC:L/Au:N/C:N/I:N/A:C/E:ND/TD:H")?;
    /// assert_eq!(cvss.without_not_defined().as_str(), "AV:N/AC:L/Au:N/C:N/I:N/A:C/TD:H");
    /// # Ok::<(), cvss_proved::ParseError>(())
    /// ```
    #[must_use]
    pub fn without_not_defined(&self) -> Cvss {
        let shorter = calls::without_not_defined(self.as_str().as_bytes());
        Cvss::parse_incomplete(&shorter).unwrap_or_else(|_| self.clone())
    }
}

fn made_from(version: Version, metrics: &[(&str, &str)], flags: u32) -> Result<Cvss, ParseError> {
    let text = calls::from_metrics(version.number(), joined(metrics).as_bytes(), flags);
    of_metrics(text, metrics)
}

/// The vector of the text that a call has made of metrics, or its error. If the rejected metric has a
/// slash, the error quotes the metric in place of the two colons that `joined` puts there.
fn of_metrics(
    text: Result<String, calls::Rejected>,
    metrics: &[(&str, &str)],
) -> Result<Cvss, ParseError> {
    let error = match text {
        Ok(text) => return Cvss::parse_incomplete(&text),
        Err(rejected) => ParseError::of(rejected),
    };
    let rejected = error.index().and_then(|index| metrics.get(index));
    let component = rejected.map(component_of).unwrap_or_default();
    match error.index().filter(|_| component.contains('/')) {
        Some(index) => Err(ParseError::with_slash(&component, index)),
        None => Err(error),
    }
}

fn component_of((name, value): &(&str, &str)) -> String {
    format!("{name}:{value}")
}

/// The components of metrics, joined by slashes. The library would read one that has a slash as two, so
/// two colons replace it, which the library rejects at its index.
fn joined(metrics: &[(&str, &str)]) -> String {
    let component = |metric| match component_of(metric) {
        component if component.contains('/') => "::".to_string(),
        component => component,
    };
    let components: Vec<String> = metrics.iter().map(component).collect();
    components.join("/")
}
