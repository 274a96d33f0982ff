//! CVSS v3.0 and v3.1: vectors, metrics and scores.

pub mod metric;
mod score;
mod vector;

pub use self::metric::{Metric, MetricType};
pub use self::score::Score;
pub use self::vector::Vector;
