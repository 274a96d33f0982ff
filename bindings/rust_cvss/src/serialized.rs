//! Vectors and names as texts, in any format of serde.

use crate::{Cvss, Severity};
use core::fmt::{self, Display, Formatter};
use core::marker::PhantomData;
use core::str::FromStr;
use serde::de::{Deserialize, Deserializer, Error, Visitor};
use serde::ser::{Serialize, Serializer};

/// Reads a text.
struct Text<T>(PhantomData<T>);

impl<T: FromStr<Err = crate::Error>> Visitor<'_> for Text<T> {
    type Value = T;

    fn expecting(&self, f: &mut Formatter<'_>) -> fmt::Result {
        f.write_str("a string")
    }

    fn visit_str<E: Error>(self, text: &str) -> Result<T, E> {
        text.parse().map_err(E::custom)
    }
}

fn written<T: Display, S: Serializer>(value: &T, serializer: S) -> Result<S::Ok, S::Error> {
    serializer.collect_str(value)
}

macro_rules! serialized {
    ($($(#[$cfg:meta])* $type:ty),+) => {
        $(
            $(#[$cfg])*
            impl Serialize for $type {
                fn serialize<S: Serializer>(&self, serializer: S) -> Result<S::Ok, S::Error> {
                    written(self, serializer)
                }
            }

            $(#[$cfg])*
            impl<'de> Deserialize<'de> for $type {
                fn deserialize<D: Deserializer<'de>>(deserializer: D) -> Result<Self, D::Error> {
                    deserializer.deserialize_str(Text(PhantomData))
                }
            }
        )+
    };
}

serialized! {
    Cvss,
    Severity,
    #[cfg(feature = "v2")]
    crate::v2::Vector,
    #[cfg(feature = "v3")]
    crate::v3::Vector,
    #[cfg(feature = "v4")]
    crate::v4::Vector,
    #[cfg(feature = "v4")]
    crate::v4::Nomenclature
}
