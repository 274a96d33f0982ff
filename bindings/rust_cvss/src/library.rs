//! What is asked of the proved library: whether a text is a vector, its canonical text, and its scores. As in the
//! crate, a v3 vector may lack base metrics.

use crate::rejecting::{component_error, error_of, invalid_component};
use crate::Error;
use cvss_proved::{Cvss as Read, Values};
#[cfg(any(feature = "v2", feature = "v3"))]
use cvss_proved::{Exact, Numbers, Version};

/// A metric of a vector, as the library gives it and as texts have it.
pub(crate) trait Component: Copy {
    /// Which bits of a second letter count: 0 if no two values begin with the same letter.
    const SECOND: u8;

    /// The values by the places of their fields.
    const PLACED: [Option<Self>; 32];

    /// Adds a slash and the component.
    fn push(self, text: &mut String);

    /// The value whose spelling a field of the library has; none if it is empty.
    fn of(field: [u8; 8]) -> Option<Self> {
        // no comparison, which the processor would have to guess
        Self::PLACED[place_of(field, Self::SECOND)]
    }
}

/// A spelling in eight bytes, filled up with bytes 0.
pub(crate) const fn field(spelling: &str) -> [u8; 8] {
    let spelling = spelling.as_bytes();
    let mut field = [0; 8];
    let mut at = 0;
    while at < spelling.len() {
        field[at] = spelling[at];
        at += 1;
    }
    field
}

/// A place from 0 to 31, which no two values of a metric have, and 0 of none. `placed` compares the values.
pub(crate) const fn place_of(field: [u8; 8], second: u8) -> usize {
    ((field[0] ^ (field[1] & second)) & 31) as usize
}

/// The values with one more, at the place of its spelling.
macro_rules! placed {
    ($placed:ident, $spelling:literal, $value:expr) => {
        let place = $crate::library::place_of($crate::library::field($spelling), Self::SECOND);
        assert!(place != 0 && $placed[place].is_none());
        $placed[place] = Some($value);
    };
}

/// A vector that the library has read.
pub(crate) trait Own: Sized {
    /// The vector with these values, if they are of its version.
    fn of(values: &Values) -> Option<Self>;
}

/// Reads a text by the rules of the version that it reports, which is that of the vector.
pub(crate) fn read<V: Own>(text: &str) -> Result<V, Error> {
    let vector = Values::with_incomplete(text, V::of).flatten();
    vector.ok_or_else(|| rejected(text))
}

/// Why a text is rejected.
pub(crate) fn rejected(text: &str) -> Error {
    let error = Read::parse_incomplete(text).err();
    error.map_or_else(|| component_error(text), |error| error_of(&error))
}

/// Writes and reads the metrics of a vector, whose fields are given in printing order, those of base metrics
/// before a semicolon.
macro_rules! components {
    ($($base:ident)+; $($other:ident)+) => {
        impl Vector {
            /// The longest text of a vector has fewer bytes.
            const LONGEST: usize = 256;

            /// Adds the components of base metrics, each with a slash before it.
            fn push_base(&self, text: &mut String) {
                use $crate::library::Component;
                $(
                    if let Some(value) = self.$base {
                        value.push(text);
                    }
                )+
            }

            /// Adds the components, each with a slash before it.
            fn push_components(&self, text: &mut String) {
                use $crate::library::Component;
                self.push_base(text);
                $(
                    if let Some(value) = self.$other {
                        value.push(text);
                    }
                )+
            }

            /// The vector with these values.
            fn filled(mut self, values: &cvss_proved::Values) -> Vector {
                use $crate::library::Component;
                let mut fields = values.fields().iter().copied();
                $(self.$base = fields.next().and_then(Component::of);)+
                $(self.$other = fields.next().and_then(Component::of);)+
                self
            }
        }
    };
}

/// The metrics that a vector has, as pairs of a metric and its value.
macro_rules! listed {
    ($vector:ident, $($kind:ident $field:ident),+) => {
        [
            $((MetricType::$kind, $vector.$field.as_ref().map(|value| value as &dyn core::fmt::Debug)),)+
        ]
        .into_iter()
        .filter_map(|(kind, value)| Some((kind, value?)))
    };
}

pub(crate) use {components, listed, placed};

/// The base score of a vector of v2 or v3 that has base metrics alone and may lack any: of its text if the
/// library reads it, or else of its components. The score with all metrics is then the base score.
#[cfg(any(feature = "v2", feature = "v3"))]
pub(crate) fn base_score(version: Version, text: &str, components: &str) -> f64 {
    match cvss_proved::score_incomplete(text) {
        Some(score) => score.value(),
        None => scores_of_components(version, components)[0],
    }
}

/// The temporal and the environmental score of a vector that may lack any metric.
#[cfg(any(feature = "v2", feature = "v3"))]
pub(crate) fn other_scores(version: Version, text: &str, components: &str) -> [f64; 2] {
    let value = |score: Option<cvss_proved::Score>| score.unwrap_or_default().value();
    if let Some(scores) = cvss_proved::scores_incomplete(text) {
        return [value(scores.temporal), value(scores.environmental)];
    }
    let [_, temporal, environmental] = scores_of_components(version, components);
    [temporal, environmental]
}

#[cfg(any(feature = "v2", feature = "v3"))]
fn scores_of_components(version: Version, components: &str) -> [f64; 3] {
    let numbers = numbers(version, components);
    numbers.map_or([f64::NAN; 3], |own| {
        own.scores().map(cvss_proved::Score::value)
    })
}

/// The scores and sub-scores of a vector of v2 or v3 with these components.
#[cfg(any(feature = "v2", feature = "v3"))]
pub(crate) fn numbers(version: Version, components: &str) -> Option<Numbers> {
    Numbers::parse(version, components.strip_prefix('/').unwrap_or(components))
}

/// A number that is rounded as the scores of a version are. One that is no number, or more than 999,999
/// from 0, stays as it is.
#[cfg(any(feature = "v2", feature = "v3"))]
pub(crate) fn rounded(version: Version, number: f64) -> f64 {
    let exact = Exact::nearest(number);
    exact
        .and_then(|exact| exact.rounded(version))
        .map_or(number, |tenths| f64::from(tenths) / 10.0)
}

/// The part of a text before its first slash.
pub(crate) fn first_piece(text: &str) -> &str {
    text.split_once('/').map_or(text, |(first, _)| first)
}

/// Reads a text by the parser of a version whose vectors begin with one of these pieces. The text is not
/// such a piece alone.
#[cfg(any(feature = "v3", feature = "v4"))]
pub(crate) fn read_with_version<V: Own>(text: &str, own: &[&str]) -> Result<V, Error> {
    let first = first_piece(text);
    if own.contains(&first) && first != text {
        return read(text);
    }
    let component = invalid_component(&format!("{}/{text}", own[0]));
    if let Some(component) = component {
        return Err(component_error(&component));
    }
    let (prefix, version) = first.split_once(':').unwrap_or((first, ""));
    if prefix == crate::PREFIX {
        Err(Error::UnsupportedVersion {
            version: version.to_owned(),
        })
    } else {
        Err(Error::InvalidPrefix {
            prefix: prefix.to_owned(),
        })
    }
}

/// Reads a text by the parser of v2.
#[cfg(feature = "v2")]
pub(crate) fn read_v2<V: Own>(text: &str) -> Result<V, Error> {
    let first = first_piece(text);
    let is_v2 = |(_, value): (&str, &str)| !value.contains(['.', ':']);
    if first != text && first.split_once(':').map_or(true, is_v2) {
        return read(text);
    }
    if let Some(component) = invalid_component(&format!("A:N/{text}")) {
        return Err(component_error(&component));
    }
    // The first component is at fault: no value has a point, and a vector has more than one component.
    let metric = first.split_once(':').unwrap_or((first, ""));
    let error = Read::from_metrics(Version::V20, &[metric]).err();
    Err(error.map_or_else(|| component_error(first), |error| error_of(&error)))
}
