//! Vectors and names as texts, and scores as numbers, in any format of serde.

use crate::{Cvss, Group, Nomenclature, Score, Severity, Version};
use serde::de::{Deserialize, Deserializer, Error, Unexpected, Visitor};
use serde::ser::{Serialize, Serializer};
use std::fmt::{self, Display, Formatter};
use std::str::FromStr;

/// Reads a text, and says what is expected if it is rejected.
struct Text<T, E> {
    expected: &'static str,
    read: fn(&str) -> Result<T, E>,
}

impl<T, R: Display> Visitor<'_> for Text<T, R> {
    type Value = T;

    fn expecting(&self, f: &mut Formatter<'_>) -> fmt::Result {
        f.write_str(self.expected)
    }

    fn visit_str<E: Error>(self, text: &str) -> Result<T, E> {
        let read = self.read;
        read(text)
            .map_err(|error| E::custom(format_args!("{error}: `{text}` is not {}", self.expected)))
    }
}

macro_rules! serialized {
    ($($(#[$doc:meta])* $type:ident: $expected:expr),+) => {
        $(
            $(#[$doc])*
            impl Serialize for $type {
                fn serialize<S: Serializer>(&self, serializer: S) -> Result<S::Ok, S::Error> {
                    serializer.serialize_str(self.as_ref())
                }
            }

            $(#[$doc])*
            impl<'de> Deserialize<'de> for $type {
                fn deserialize<D: Deserializer<'de>>(deserializer: D) -> Result<$type, D::Error> {
                    deserializer.deserialize_str(Text {
                        expected: $expected,
                        read: $type::from_str,
                    })
                }
            }
        )+
    };
}

const VECTOR: &str = "a CVSS vector of v2, v3.0, v3.1 or v4.0";

serialized! {
    /// As its canonical text. A v3 vector that lacks base metrics is serialized, but rejected when it
    /// is deserialized, unless by [`allow_incomplete`]; with the feature `serde`.
    Cvss: VECTOR,
    /// As its text, which is read in any ASCII case; with the feature `serde`.
    Severity: "one of none, low, medium, high and critical",
    /// As its text; with the feature `serde`.
    Version: "one of 2.0, 3.0, 3.1 and 4.0",
    /// As its text; with the feature `serde`.
    Nomenclature: "one of CVSS-B, CVSS-BE, CVSS-BT and CVSS-BTE",
    /// As its text; with the feature `serde`.
    Group: "one of base, temporal, threat, environmental and supplemental"
}

/// Serializes a [`Cvss`] as its canonical text, and deserializes it as [`Cvss::parse_incomplete`] does;
/// with the feature `serde`.
///
/// ```ignore
/// #[derive(Serialize, Deserialize)]
/// struct Finding {
///     #[serde(with = "cvss_proved::allow_incomplete")]
///     cvss: Cvss,
/// }
/// ```
pub mod allow_incomplete {
    use super::{Cvss, Deserializer, Serialize, Serializer, Text, VECTOR};

    /// The canonical text.
    ///
    /// # Errors
    ///
    /// Those of the serializer.
    pub fn serialize<S: Serializer>(cvss: &Cvss, serializer: S) -> Result<S::Ok, S::Error> {
        cvss.serialize(serializer)
    }

    /// The vector that a text denotes, which in v3 may lack base metrics.
    ///
    /// # Errors
    ///
    /// Those of the deserializer, and for a text that is rejected why it is.
    pub fn deserialize<'de, D: Deserializer<'de>>(deserializer: D) -> Result<Cvss, D::Error> {
        deserializer.deserialize_str(Text {
            expected: VECTOR,
            read: Cvss::parse_incomplete,
        })
    }
}

/// As a number, such as 9.8; with the feature `serde`.
impl Serialize for Score {
    fn serialize<S: Serializer>(&self, serializer: S) -> Result<S::Ok, S::Error> {
        serializer.serialize_f64(self.value())
    }
}

/// Reads a number that is a score.
struct Number;

impl Visitor<'_> for Number {
    type Value = Score;

    fn expecting(&self, f: &mut Formatter<'_>) -> fmt::Result {
        f.write_str("a number from 0 to 10 with at most one decimal")
    }

    #[allow(clippy::float_cmp)] // a score is the nearest number to its tenths, and no other
    fn visit_f64<E: Error>(self, number: f64) -> Result<Score, E> {
        (0..=100)
            .filter_map(Score::from_tenths)
            .find(|score| score.value() == number)
            .ok_or_else(|| E::invalid_value(Unexpected::Float(number), &self))
    }

    fn visit_u64<E: Error>(self, number: u64) -> Result<Score, E> {
        let tenths = u8::try_from(number)
            .ok()
            .and_then(|number| number.checked_mul(10));
        tenths
            .and_then(Score::from_tenths)
            .ok_or_else(|| E::invalid_value(Unexpected::Unsigned(number), &self))
    }

    fn visit_i64<E: Error>(self, number: i64) -> Result<Score, E> {
        match u64::try_from(number) {
            Ok(number) => self.visit_u64(number),
            Err(_) => Err(E::invalid_value(Unexpected::Signed(number), &self)),
        }
    }
}

/// From a number that has at most one decimal; with the feature `serde`.
impl<'de> Deserialize<'de> for Score {
    fn deserialize<D: Deserializer<'de>>(deserializer: D) -> Result<Score, D::Error> {
        deserializer.deserialize_f64(Number)
    }
}
