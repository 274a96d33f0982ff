//! The traits of a vector: it is printed, compared and parsed by its text.

use crate::{Cvss, ParseError};
use std::cmp::Ordering;
use std::fmt;
use std::hash::{Hash, Hasher};
use std::str::FromStr;

impl AsRef<str> for Cvss {
    fn as_ref(&self) -> &str {
        self.as_str()
    }
}

impl fmt::Display for Cvss {
    fn fmt(&self, f: &mut fmt::Formatter<'_>) -> fmt::Result {
        f.pad(self.as_str())
    }
}

impl PartialEq for Cvss {
    fn eq(&self, other: &Cvss) -> bool {
        self.as_str() == other.as_str()
    }
}

impl Eq for Cvss {}

impl Hash for Cvss {
    fn hash<H: Hasher>(&self, state: &mut H) {
        self.as_str().hash(state);
    }
}

impl PartialOrd for Cvss {
    fn partial_cmp(&self, other: &Cvss) -> Option<Ordering> {
        Some(self.cmp(other))
    }
}

impl Ord for Cvss {
    fn cmp(&self, other: &Cvss) -> Ordering {
        (self.score(), self.as_str()).cmp(&(other.score(), other.as_str()))
    }
}

/// As [`Cvss::parse`].
impl FromStr for Cvss {
    type Err = ParseError;

    fn from_str(text: &str) -> Result<Cvss, ParseError> {
        Cvss::parse(text)
    }
}

/// As [`Cvss::parse`].
impl TryFrom<&str> for Cvss {
    type Error = ParseError;

    fn try_from(text: &str) -> Result<Cvss, ParseError> {
        Cvss::parse(text)
    }
}
