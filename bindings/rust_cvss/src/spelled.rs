//! Enums whose values vectors spell, and enums of metrics.

/// An enum of the values of a metric, each with its spelling and with another one where two are read.
macro_rules! spelled {
    ($(#[$doc:meta])* $name:ident $kind:ident $error:ident $second:literal {
        $($(#[$own:meta])* $variant:ident $spelling:literal $(or $other:literal)?),+
    }) => {
        $(#[$doc])*
        #[derive(Clone, Copy, Debug, PartialEq, Eq, PartialOrd, Ord)]
        pub enum $name {
            $(
                #[doc = concat!("`", stringify!($kind), ":", $spelling, "`")]
                $(#[$own])*
                $variant,
            )+
        }

        impl $name {
            /// How a vector spells the value.
            const fn spelling(self) -> &'static str {
                match self {
                    $(Self::$variant => $spelling,)+
                }
            }
        }

        impl $crate::library::Component for $name {
            const SECOND: u8 = $second;

            const PLACED: [Option<Self>; 32] = {
                let mut placed = [None; 32];
                $($crate::library::placed!(placed, $spelling, Self::$variant);)+
                placed
            };

            fn push(self, text: &mut String) {
                text.push_str(match self {
                    $(Self::$variant => concat!("/", stringify!($kind), ":", $spelling),)+
                });
            }
        }

        impl core::str::FromStr for $name {
            type Err = $crate::Error;

            fn from_str(text: &str) -> Result<Self, $crate::Error> {
                match text {
                    $($spelling $(| $other)? => Ok(Self::$variant),)+
                    _ => Err($crate::Error::$error {
                        metric_type: Self::TYPE,
                        value: text.to_owned(),
                    }),
                }
            }
        }

        $crate::spelled::component!($name);
    };
}

/// Prints a value as the component of a vector.
macro_rules! component {
    ($name:ident $(<$T:ident: $bound:path>)?) => {
        impl$(<$T: $bound + core::str::FromStr<Err = $crate::Error>>)? core::fmt::Display for $name$(<$T>)? {
            fn fmt(&self, f: &mut core::fmt::Formatter<'_>) -> core::fmt::Result {
                write!(f, "{}:{}", Self::name(), self.as_str())
            }
        }
    };
}

/// The enum of the metrics of a version, in its order, with their names in words.
macro_rules! metric_types {
    ($(#[$doc:meta])* $($kind:ident $description:literal)+) => {
        $(#[$doc])*
        #[derive(Clone, Copy, Debug, PartialEq, Eq, PartialOrd, Ord)]
        #[non_exhaustive]
        pub enum MetricType {
            $(
                #[doc = $description]
                $kind,
            )+
        }

        impl MetricType {
            /// The abbreviation, as a vector has it.
            #[must_use]
            pub fn name(self) -> &'static str {
                match self {
                    $(Self::$kind => stringify!($kind),)+
                }
            }

            /// The name in words.
            #[must_use]
            pub fn description(self) -> &'static str {
                match self {
                    $(Self::$kind => $description,)+
                }
            }
        }

        impl core::fmt::Display for MetricType {
            fn fmt(&self, f: &mut core::fmt::Formatter<'_>) -> core::fmt::Result {
                f.write_str(self.name())
            }
        }

        impl core::str::FromStr for MetricType {
            type Err = $crate::Error;

            fn from_str(text: &str) -> Result<Self, $crate::Error> {
                match text {
                    $(stringify!($kind) => Ok(Self::$kind),)+
                    _ => Err($crate::Error::UnknownMetric {
                        name: text.to_owned(),
                    }),
                }
            }
        }
    };
}

pub(crate) use {component, metric_types, spelled};
