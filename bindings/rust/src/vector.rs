//! A vector: its text and its scores.

use crate::calls;
use crate::library::{CvssVector, ALLOW_INCOMPLETE};
use crate::{Nomenclature, ParseError, Score, Scores, Severity, Version};

/// A parsed vector: its canonical text and its scores.
///
/// Two vectors are equal if their canonical texts are. They are ordered by [`Cvss::score`], and
/// those of one score by their texts.
#[derive(Clone, Debug)]
pub struct Cvss {
    text: String,
    scores: Scores,
    severity: Severity,
    base_severity: Severity,
    temporal_severity: Option<Severity>,
    environmental_severity: Option<Severity>,
    by_nomenclature: [Option<Score>; 4],
    is_complete: bool,
}

impl Cvss {
    /// Parses a vector by the rules of the version in its prefix; without a prefix by those of v2.
    ///
    /// # Errors
    ///
    /// The first reason why the text is rejected. A v3 vector that lacks base metrics, which FIRST's
    /// document makes mandatory, is rejected for the first missing one, in the standard's order.
    ///
    /// ```
    /// let error = cvss_proved::Cvss::parse("CVSS:3.1/AV:N/AC:L/PR:N/UI:N/S:U").unwrap_err();
    /// let message = "missing mandatory CVSSv3 C (Confidentiality Impact) metric";
    /// assert_eq!((error.message(), error.metric()), (message, Some("C")));
    /// ```
    pub fn parse(text: &str) -> Result<Cvss, ParseError> {
        Cvss::parse_bytes(text.as_bytes())
    }

    /// Parses a text that need not be UTF-8, as `parse` does; what is not UTF-8 is rejected.
    ///
    /// # Errors
    ///
    /// As of [`Cvss::parse`].
    pub fn parse_bytes(text: &[u8]) -> Result<Cvss, ParseError> {
        Cvss::parse_with_flags(text, 0)
    }

    /// Parses a text as `parse` does, but accepts a v3 vector that lacks base metrics: they have no
    /// weight in its scores, and [`Cvss::is_complete`] is false. The vectors that
    /// [`Cvss::with_metrics`] and [`Cvss::without_not_defined`] make of it may lack them too.
    ///
    /// # Errors
    ///
    /// The first reason why the text is rejected.
    ///
    /// ```
    /// let cvss = cvss_proved::Cvss::parse_incomplete("CVSS:3.1/AV:N/AC:L/PR:N/UI:N/S:U/C:H")?;
    /// assert!(!cvss.is_complete());
    /// assert_eq!(cvss.score().tenths(), 75);
    /// # Ok::<(), cvss_proved::ParseError>(())
    /// ```
    pub fn parse_incomplete(text: &str) -> Result<Cvss, ParseError> {
        Cvss::parse_bytes_incomplete(text.as_bytes())
    }

    /// Parses a text that need not be UTF-8, as `parse_incomplete` does.
    ///
    /// # Errors
    ///
    /// The first reason why the text is rejected.
    pub fn parse_bytes_incomplete(text: &[u8]) -> Result<Cvss, ParseError> {
        Cvss::parse_with_flags(text, ALLOW_INCOMPLETE)
    }

    pub(crate) fn parse_with_flags(text: &[u8], flags: u32) -> Result<Cvss, ParseError> {
        let (vector, canonical) = calls::parse(text, flags).map_err(ParseError::of)?;
        Ok(Cvss::of(canonical, &vector))
    }

    fn of(text: String, vector: &CvssVector) -> Cvss {
        let severity = |number| Severity::of(number).unwrap_or(Severity::None);
        Cvss {
            text,
            scores: Scores::of(vector),
            severity: severity(vector.severity),
            base_severity: severity(vector.base_severity),
            temporal_severity: Severity::of(vector.temporal_severity),
            environmental_severity: Severity::of(vector.environmental_severity),
            by_nomenclature: vector.by_nomenclature.map(Score::of),
            is_complete: vector.is_complete != 0,
        }
    }

    /// The canonical text.
    #[must_use]
    pub fn as_str(&self) -> &str {
        &self.text
    }

    /// The version of the standard.
    #[must_use]
    pub fn version(&self) -> Version {
        self.scores.version
    }

    /// The score with all metrics in the vector. In v2 and v3 it is the environmental score if an
    /// environmental metric is defined (has another value than `X` or `ND`), else the temporal score
    /// if a temporal one is, else the base score.
    ///
    /// ```
    /// let text = "CVSS:3.1/AV:N/AC:L/PR:N/UI:N/S:U/C:H/I:H/A:H/E:U/RL:O/RC:C";
    /// let cvss = cvss_proved::Cvss::parse(text)?;
    /// assert_eq!((cvss.score().tenths(), cvss.base_score().tenths()), (85, 98));
    /// # Ok::<(), cvss_proved::ParseError>(())
    /// ```
    #[must_use]
    pub fn score(&self) -> Score {
        self.scores.score
    }

    /// The severity of [`Cvss::score`].
    #[must_use]
    pub fn severity(&self) -> Severity {
        self.severity
    }

    /// The score of the base metrics alone; in v4.0 that of CVSS-B.
    #[must_use]
    pub fn base_score(&self) -> Score {
        self.scores.base
    }

    /// The severity of [`Cvss::base_score`].
    #[must_use]
    pub fn base_severity(&self) -> Severity {
        self.base_severity
    }

    /// The temporal score, which v2 and v3 have.
    #[must_use]
    pub fn temporal_score(&self) -> Option<Score> {
        self.scores.temporal
    }

    /// The severity of [`Cvss::temporal_score`].
    #[must_use]
    pub fn temporal_severity(&self) -> Option<Severity> {
        self.temporal_severity
    }

    /// The environmental score, which v2 and v3 have.
    #[must_use]
    pub fn environmental_score(&self) -> Option<Score> {
        self.scores.environmental
    }

    /// The severity of [`Cvss::environmental_score`].
    #[must_use]
    pub fn environmental_severity(&self) -> Option<Severity> {
        self.environmental_severity
    }

    /// Which groups of metrics the score counts, in v4.0.
    #[must_use]
    pub fn nomenclature(&self) -> Option<Nomenclature> {
        self.scores.nomenclature
    }

    /// The v4.0 score of these groups of metrics: with [`Nomenclature::B`] the base metrics alone,
    /// which is [`Cvss::base_score`], and with [`Nomenclature::BTE`] all metrics, which is
    /// [`Cvss::score`]. v2 and v3 have none.
    ///
    /// ```
    /// use cvss_proved::{Cvss, Nomenclature};
    ///
    /// let text = "CVSS:4.0/AV:N/AC:L/AT:N/PR:N/UI:N/VC:H/VI:H/VA:H/SC:N/SI:N/SA:N/E:U";
    /// let cvss = Cvss::parse(text)?;
    /// let base = cvss.nomenclature_score(Nomenclature::B).unwrap();
    /// assert_eq!((cvss.score().tenths(), base.tenths()), (81, 93));
    /// # Ok::<(), cvss_proved::ParseError>(())
    /// ```
    #[must_use]
    pub fn nomenclature_score(&self, nomenclature: Nomenclature) -> Option<Score> {
        let [b, be, bt, bte] = self.by_nomenclature;
        match nomenclature {
            Nomenclature::B => b,
            Nomenclature::BE => be,
            Nomenclature::BT => bt,
            Nomenclature::BTE => bte,
        }
    }

    /// The version, the scores and the nomenclature.
    #[must_use]
    pub fn scores(&self) -> Scores {
        self.scores
    }

    /// Whether all base metrics are present. Only a v3 vector that a function for incomplete ones has
    /// accepted may lack some.
    #[must_use]
    pub fn is_complete(&self) -> bool {
        self.is_complete
    }

    /// The vector's record: the JSON object of FIRST's schema of its version, without spaces. As the
    /// schema has it, `baseScore` of v4.0 is the score of all metrics in the vector.
    #[must_use]
    pub fn record(&self) -> String {
        calls::record(self.text.as_bytes())
    }

    /// How the score is computed: a JSON object without spaces.
    ///
    /// For v2 and v3 it has the weights, the sub-scores and the number before the rounding of each
    /// score; for v4.0 the values that count, the `MacroVector` with its listed score, the share of
    /// each group of metrics in the mean that is subtracted from it, and the number before the
    /// rounding. A number is less than 10^-6 from the exact one. It is exact if that has at most seven
    /// decimals, except for those of v3 with a changed scope, which have a power.
    ///
    /// ```
    /// let text = "CVSS:4.0/AV:N/AC:L/AT:N/PR:N/UI:N/VC:L/VI:H/VA:N/SC:N/SI:N/SA:N/E:P";
    /// let explanation = cvss_proved::Cvss::parse(text)?.explain();
    /// assert!(explanation.contains(r#""mean":0.05,"nomenclature":"CVSS-BT","number":7.75,"score":7.8"#));
    /// # Ok::<(), cvss_proved::ParseError>(())
    /// ```
    #[must_use]
    pub fn explain(&self) -> String {
        calls::explain(self.text.as_bytes())
    }
}
