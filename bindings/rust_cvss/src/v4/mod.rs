//! CVSS v4.0: vectors, metrics and scores.

pub mod metric;
mod score;
mod vector;

pub use self::metric::MetricType;
pub use self::score::{Nomenclature, Score};
pub use self::vector::Vector;
