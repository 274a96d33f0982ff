//! Why a text is rejected.

use crate::calls::Rejected;
use crate::library::CvssError;
use crate::metrics::field_text;
use std::error::Error;
use std::fmt;

/// The kind of an error.
#[derive(Clone, Copy, Debug, PartialEq, Eq, Hash)]
#[non_exhaustive]
pub enum ParseErrorKind {
    /// A segment of the text has no colon, or more than one.
    InvalidComponent,
    /// There is a version, but not after `CVSS`.
    InvalidPrefix,
    /// The version is none of 3.0, 3.1 and 4.0.
    UnsupportedVersion,
    /// The version has no metric of this name.
    UnknownMetric,
    /// The metric has no such value.
    InvalidValue,
    /// The metric is there twice.
    DuplicateMetric,
    /// The metric is mandatory, and missing.
    MissingMetric,
    /// The text is not UTF-8.
    NotUtf8,
}

impl ParseErrorKind {
    fn of(number: i32) -> ParseErrorKind {
        match number {
            1 => ParseErrorKind::InvalidComponent,
            2 => ParseErrorKind::InvalidPrefix,
            3 => ParseErrorKind::UnsupportedVersion,
            4 => ParseErrorKind::UnknownMetric,
            5 => ParseErrorKind::InvalidValue,
            6 => ParseErrorKind::DuplicateMetric,
            7 => ParseErrorKind::MissingMetric,
            _ => ParseErrorKind::NotUtf8,
        }
    }
}

/// Why a text or a metric is rejected: the first error in it.
#[derive(Clone, Debug, PartialEq, Eq, Hash)]
pub struct ParseError {
    message: String,
    kind: ParseErrorKind,
    metric: Option<String>,
    value: Option<String>,
    index: Option<usize>,
}

impl ParseError {
    /// The error that the library has written, with its message.
    pub(crate) fn of((error, message): Rejected) -> ParseError {
        let metric = field_text(&error.metric);
        ParseError {
            kind: ParseErrorKind::of(error.kind),
            metric: (!metric.is_empty()).then(|| metric.to_string()),
            value: quoted(&error, &message).map(String::from),
            index: usize::try_from(error.index).ok(),
            message,
        }
    }

    /// The error of a component that has a slash.
    pub(crate) fn with_slash(component: &str, index: usize) -> ParseError {
        ParseError {
            message: format!("invalid CVSS metric group component: `{component}`"),
            kind: ParseErrorKind::InvalidComponent,
            metric: None,
            value: Some(component.to_string()),
            index: Some(index),
        }
    }

    /// The error in words.
    #[must_use]
    pub fn message(&self) -> &str {
        &self.message
    }

    /// The kind of the error.
    #[must_use]
    pub fn kind(&self) -> ParseErrorKind {
        self.kind
    }

    /// The abbreviation of the metric that has an invalid value, is there twice or is missing.
    #[must_use]
    pub fn metric(&self) -> Option<&str> {
        self.metric.as_deref()
    }

    /// The part of the text that the message quotes: the component, the prefix, the version, the
    /// unknown name or the invalid value.
    #[must_use]
    pub fn value(&self) -> Option<&str> {
        self.value.as_deref()
    }

    /// The index of the rejected metric among those that [`Cvss::with_metrics`] and
    /// [`Cvss::from_metrics`] are given.
    ///
    /// [`Cvss::with_metrics`]: crate::Cvss::with_metrics
    /// [`Cvss::from_metrics`]: crate::Cvss::from_metrics
    #[must_use]
    pub fn index(&self) -> Option<usize> {
        self.index
    }
}

/// The part that a message quotes. An empty one has its offset too, which is never 0.
fn quoted<'a>(error: &CvssError, message: &'a str) -> Option<&'a str> {
    let start = Some(error.quoted_start).filter(|start| *start > 0)?;
    message.get(start..start + error.quoted_length)
}

impl AsRef<str> for ParseError {
    fn as_ref(&self) -> &str {
        &self.message
    }
}

impl fmt::Display for ParseError {
    fn fmt(&self, f: &mut fmt::Formatter<'_>) -> fmt::Result {
        f.pad(&self.message)
    }
}

impl Error for ParseError {}
