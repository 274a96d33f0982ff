//! CVSS vectors of v2, v3.0, v3.1 and v4.0: parsed, normalized and scored.
//!
//! The results are those of a library whose functions are proved up to the call. This crate calls
//! them; it computes no score itself.
//!
//! ```
//! use cvss_proved::{Cvss, ParseErrorKind, Severity};
//!
//! let cvss = Cvss::parse("CVSS:3.1/AV:N/AC:L/PR:N/UI:N/S:U/C:H/I:H/A:H")?;
//! assert_eq!(cvss.score().tenths(), 98);
//! assert_eq!(cvss.score().value(), 9.8);
//! assert_eq!(cvss.severity(), Severity::Critical);
//!
//! let error = Cvss::parse("AV:N/AC:q").unwrap_err();
//! assert_eq!(error.message(), "invalid CVSSv2 AC (Access Complexity) metric: `q`");
//! assert_eq!((error.kind(), error.metric()), (ParseErrorKind::InvalidValue, Some("AC")));
//! # Ok::<(), cvss_proved::ParseError>(())
//! ```
//!
//! A vector has all its base metrics, unless the caller says otherwise: each function that parses a
//! vector rejects a v3 vector that lacks one. Each has a twin whose name ends in `_incomplete`, which
//! accepts it.
//!
//! With the feature `serde`, which needs the crate of this name, [`Cvss`], [`Severity`], [`Version`],
//! [`Nomenclature`] and [`Group`] are `Serialize` and `Deserialize`, as texts, and [`Score`] is, as a
//! number. The module `allow_incomplete` is for `#[serde(with = "..")]` of a field that may have an
//! incomplete vector.
#![deny(missing_docs)]

mod calls;
mod error;
mod exact;
mod find;
mod library;
mod lines;
mod metrics;
mod numbers;
mod scores;
#[cfg(feature = "serde")]
mod serialized;
mod table;
mod traits;
mod values;
mod vector;
mod words;

pub use error::{ParseError, ParseErrorKind};
pub use exact::{temporal_with_impact, Exact, Numbers};
pub use find::{find, find_incomplete, Match, Matches};
pub use lines::{score_line, score_line_incomplete, score_lines, score_lines_incomplete};
pub use metrics::Metric;
pub use numbers::{Group, Nomenclature, Score, Severity, UnknownName, Version};
pub use scores::{score, score_incomplete, scores, scores_incomplete, Scores};
#[cfg(feature = "serde")]
pub use serialized::allow_incomplete;
pub use values::Values;
pub use vector::Cvss;
pub use words::{metrics, MetricType, MetricValue};
