//! The environmental metrics of CVSS v3.

use crate::library::{placed, Component};
use crate::spelled::component;
use crate::v3::metric::base::{
    AttackComplexity, AttackVector, Availability, Confidentiality, Integrity, PrivilegesRequired,
    Scope, UserInteraction,
};
use crate::v3::metric::{metrics, Metric, MetricType};
use crate::Error;
use core::str::FromStr;

metrics! {
    /// Availability Requirement.
    AvailabilityRequirement AR { NotDefined "X" 1.0, High "H" 1.5, Medium "M" 1.0, Low "L" 0.5 }

    /// Confidentiality Requirement.
    ConfidentialityRequirement CR { NotDefined "X" 1.0, High "H" 1.5, Medium "M" 1.0, Low "L" 0.5 }

    /// Integrity Requirement.
    IntegrityRequirement IR { NotDefined "X" 1.0, High "H" 1.5, Medium "M" 1.0, Low "L" 0.5 }
}

/// A modified metric, which has the values of a base metric.
#[derive(Clone, Copy, Debug, PartialEq, Eq, PartialOrd, Ord)]
pub enum Modified<T> {
    /// `X`: the base metric counts.
    NotDefined,
    /// This value counts in place of the base metric's.
    Modified(T),
}

impl<T: BaseMetric + FromStr<Err = Error>> Modified<T> {
    /// The weight of the value that counts: this one, or else that of the base metric; 0 where there
    /// is neither.
    #[must_use]
    pub fn modified_score(self, base: Option<T>) -> f64 {
        self.or(base).map_or(0.0, Metric::score)
    }
}

impl<T> Modified<T> {
    fn or(self, base: Option<T>) -> Option<T> {
        match self {
            Modified::Modified(value) => Some(value),
            Modified::NotDefined => base,
        }
    }
}

impl Modified<PrivilegesRequired> {
    /// As `modified_score`, with a modified scope that is changed or not.
    #[must_use]
    pub fn scoped_score(self, scope_changed: bool, base: Option<PrivilegesRequired>) -> f64 {
        let value = self.or(base);
        value.map_or(0.0, |value| value.scoped_score(scope_changed))
    }
}

impl<T: BaseMetric + FromStr<Err = Error>> Metric for Modified<T> {
    const TYPE: MetricType = T::MODIFIED_TYPE;

    /// 0, whatever the value; see `modified_score`.
    fn score(self) -> f64 {
        0.0
    }

    fn as_str(self) -> &'static str {
        match self {
            Modified::Modified(value) => value.as_str(),
            Modified::NotDefined => "X",
        }
    }
}

component!(Modified<T: BaseMetric>);

impl<T: BaseMetric + FromStr<Err = Error>> FromStr for Modified<T> {
    type Err = Error;

    fn from_str(text: &str) -> Result<Modified<T>, Error> {
        match text {
            "X" => Ok(Modified::NotDefined),
            _ => text.parse().map(Modified::Modified),
        }
    }
}

/// The values of a base metric, each set as the modified one, and `X`, by the places of their fields.
macro_rules! modified_values {
    ($modified:ident, $name:ident) => {{
        let mut placed = [None; 32];
        let mut place = 0;
        while place < 32 {
            if let Some(value) = $name::PLACED[place] {
                placed[place] = Some($modified::Modified(value));
            }
            place += 1;
        }
        placed!(placed, "X", $modified::NotDefined);
        placed
    }};
}

/// The modified scope.
#[derive(Clone, Copy, Debug, PartialEq, Eq, PartialOrd, Ord)]
pub enum ModifiedScope {
    /// `MS:X`: the scope counts.
    NotDefined,
    /// This scope counts in place of the other.
    Modified(Scope),
}

impl Metric for ModifiedScope {
    const TYPE: MetricType = MetricType::MS;

    fn score(self) -> f64 {
        match self {
            ModifiedScope::Modified(scope) => scope.score(),
            ModifiedScope::NotDefined => 0.0,
        }
    }

    fn as_str(self) -> &'static str {
        match self {
            ModifiedScope::Modified(scope) => scope.as_str(),
            ModifiedScope::NotDefined => "X",
        }
    }
}

component!(ModifiedScope);

impl Component for ModifiedScope {
    const SECOND: u8 = Scope::SECOND;
    const PLACED: [Option<Self>; 32] = modified_values!(ModifiedScope, Scope);

    fn push(self, text: &mut String) {
        text.push_str("/MS:");
        text.push_str(self.as_str());
    }
}

impl FromStr for ModifiedScope {
    type Err = Error;

    fn from_str(text: &str) -> Result<ModifiedScope, Error> {
        match text {
            "X" => Ok(ModifiedScope::NotDefined),
            _ => text.parse().map(ModifiedScope::Modified),
        }
    }
}

mod sealed {
    pub trait Sealed {}
}

/// A base metric that a modified metric can replace. No other crate can implement it.
pub trait BaseMetric: Metric + sealed::Sealed {
    /// The modified metric.
    const MODIFIED_TYPE: MetricType;
}

macro_rules! base_metrics {
    ($($name:ident $kind:ident)+) => {
        $(
            impl sealed::Sealed for $name {}

            impl BaseMetric for $name {
                const MODIFIED_TYPE: MetricType = MetricType::$kind;
            }

            impl Component for Modified<$name> {
                const SECOND: u8 = $name::SECOND;
                const PLACED: [Option<Self>; 32] = modified_values!(Modified, $name);

                fn push(self, text: &mut String) {
                    text.push_str(concat!("/", stringify!($kind), ":"));
                    text.push_str(self.as_str());
                }
            }
        )+
    };
}

base_metrics! {
    AttackVector MAV
    AttackComplexity MAC
    PrivilegesRequired MPR
    UserInteraction MUI
    Confidentiality MC
    Integrity MI
    Availability MA
}
