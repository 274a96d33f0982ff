//! Why the proved library rejects a text, as the errors of the crate.

use crate::Error;
use cvss_proved::{Cvss as Read, ParseError, ParseErrorKind};

/// The error of a component that has no colon, or more than one.
pub(crate) fn component_error(component: &str) -> Error {
    Error::InvalidComponent {
        component: component.to_owned(),
    }
}

/// The first component of a text that has no colon, or more than one.
pub(crate) fn invalid_component(text: &str) -> Option<String> {
    let error = Read::parse_incomplete(text).err()?;
    let is_component = error.kind() == ParseErrorKind::InvalidComponent;
    is_component.then(|| quoted(&error))
}

/// The part of a text that an error quotes.
fn quoted(error: &ParseError) -> String {
    error.value().unwrap_or_default().to_owned()
}

/// The crate's error for one of the library.
pub(crate) fn error_of(error: &ParseError) -> Error {
    match error.kind() {
        ParseErrorKind::InvalidPrefix => Error::InvalidPrefix {
            prefix: quoted(error),
        },
        ParseErrorKind::UnsupportedVersion => Error::UnsupportedVersion {
            version: quoted(error),
        },
        ParseErrorKind::UnknownMetric => Error::UnknownMetric {
            name: quoted(error),
        },
        _ => metric_error(error).unwrap_or_else(|| component_error(&quoted(error))),
    }
}

/// The crate's error for one that names a metric of a version.
macro_rules! of_metric {
    ($error:ident: $invalid:ident $duplicate:ident $($missing:ident)?) => {{
        let metric_type = $error.metric()?.parse().ok()?;
        Some(match $error.kind() {
            ParseErrorKind::InvalidValue => Error::$invalid {
                metric_type,
                value: quoted($error),
            },
            $(ParseErrorKind::MissingMetric => Error::$missing { metric_type },)?
            _ => Error::$duplicate { metric_type },
        })
    }};
}

/// The crate's error for one that names a metric. The message has the version: it begins with
/// `invalid CVSSv3`, or another number, or with `duplicate` or `missing mandatory`.
fn metric_error(error: &ParseError) -> Option<Error> {
    let (_, version) = error.message().split_once("CVSSv")?;
    match version.as_bytes().first()? {
        #[cfg(feature = "v2")]
        b'2' => of_metric!(error: InvalidMetricV2 DuplicateMetricV2 MissingMandatoryMetricV2),
        #[cfg(feature = "v3")]
        b'3' => of_metric!(error: InvalidMetricV3 DuplicateMetricV3),
        #[cfg(feature = "v4")]
        b'4' => of_metric!(error: InvalidMetricV4 DuplicateMetricV4 MissingMandatoryMetricV4),
        _ => None,
    }
}
