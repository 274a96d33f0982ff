//! Exact numbers: the sub-scores of vectors, which need not be complete, and numbers that are rounded.

use crate::calls;
use crate::library::CvssNumber;
use crate::{Score, Version};

/// How many 10^-24 a trillionth has.
const TRILLION: i128 = 1_000_000_000_000;

/// An exact number: a whole count of 10^-24, less than a million from 0.
///
/// ```
/// use cvss_proved::{Exact, Version};
///
/// let number = Exact::nearest(4.02).unwrap();
/// assert_eq!(number.value(), 4.02);
/// assert_eq!(number.rounded(Version::V31), Some(41));
/// assert_eq!(number.rounded(Version::V20), Some(40));
/// assert_eq!(Exact::nearest(f64::NAN), None);
/// ```
#[derive(Clone, Copy, Debug, Default, PartialEq, Eq, PartialOrd, Ord, Hash)]
pub struct Exact(i128);

impl Exact {
    /// The exact number nearest to a number; `None` for one that is more than 999,999 from 0, and for
    /// what is no number.
    #[must_use]
    pub fn nearest(number: f64) -> Option<Exact> {
        if !number.is_finite() || number.abs() > 999_999.0 {
            return None;
        }
        let digits = format!("{number:.24}").replace('.', "");
        digits.parse().ok().map(Exact)
    }

    /// The count of 10^-24.
    #[must_use]
    pub fn count(self) -> i128 {
        self.0
    }

    /// The nearest number in floating point.
    #[must_use]
    pub fn value(self) -> f64 {
        let decimal = format!("{}e-24", self.0);
        decimal.parse().unwrap_or_default()
    }

    /// The tenths of the number, rounded as the scores of a version are; `None` for v4.0.
    #[must_use]
    pub fn rounded(self, version: Version) -> Option<i32> {
        calls::rounded(version.number(), &self.number())
    }

    fn of(number: CvssNumber) -> Exact {
        Exact(i128::from(number.trillionths) * TRILLION + i128::from(number.rest))
    }

    fn number(self) -> CvssNumber {
        let part = |count: i128| i64::try_from(count).unwrap_or_default();
        CvssNumber {
            trillionths: part(self.0 / TRILLION),
            rest: part(self.0 % TRILLION),
        }
    }
}

/// The scores and sub-scores of a vector of v2 or v3, which may lack mandatory metrics: these have no
/// weight.
///
/// ```
/// use cvss_proved::{Numbers, Version};
///
/// let numbers = Numbers::parse(Version::V20, "AV:N/C:P/I:P/A:P").unwrap();
/// assert_eq!(numbers.impact().count(), 6_442_976_718_750 * 10_i128.pow(12));
/// assert_eq!(numbers.impact().value(), 6.44297671875);
/// assert_eq!((numbers.exploitability().value(), numbers.scores()[0].tenths()), (0.0, 28));
/// assert_eq!(Numbers::parse(Version::V20, "AV:Q"), None);
/// ```
#[derive(Clone, Copy, Debug, PartialEq, Eq)]
pub struct Numbers {
    scores: [Score; 3],
    impact: Exact,
    exploitability: Exact,
    adjusted_impact: Exact,
}

impl Numbers {
    /// Those of the vector with these components, joined by slashes; an empty text has none. `None` if
    /// a component is rejected, and for v4.0.
    #[must_use]
    pub fn parse(version: Version, metrics: &str) -> Option<Numbers> {
        let numbers = calls::numbers(version.number(), metrics.as_bytes())?;
        let score = |tenths: i32| Score::of(tenths).unwrap_or_default();
        Some(Numbers {
            scores: [
                score(numbers.base),
                score(numbers.temporal),
                score(numbers.environmental),
            ],
            impact: Exact::of(numbers.impact),
            exploitability: Exact::of(numbers.exploitability),
            adjusted_impact: Exact::of(numbers.adjusted_impact),
        })
    }

    /// The base, the temporal and the environmental score.
    #[must_use]
    pub fn scores(&self) -> [Score; 3] {
        self.scores
    }

    /// The impact sub-score: in v2 Impact, in v3 ISS, before the scope counts.
    #[must_use]
    pub fn impact(&self) -> Exact {
        self.impact
    }

    /// The exploitability sub-score.
    #[must_use]
    pub fn exploitability(&self) -> Exact {
        self.exploitability
    }

    /// The impact with the environmental metrics: in v2 `AdjustedImpact`, in v3 MISS.
    #[must_use]
    pub fn adjusted_impact(&self) -> Exact {
        self.adjusted_impact
    }
}

/// The tenths of the temporal score of the vector of v2 with these components, as of [`Numbers::parse`], and
/// with another impact in place of its own. It may be below 0. `None` if a component is rejected.
#[must_use]
pub fn temporal_with_impact(metrics: &str, impact: Exact) -> Option<i32> {
    calls::temporal_with_impact(metrics.as_bytes(), &impact.number())
}
