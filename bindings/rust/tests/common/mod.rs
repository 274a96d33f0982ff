//! What the tests share: the stored files, and the facts of a vector or an error.

// no test uses all of it
#![allow(dead_code)]

use cvss_proved::{Cvss, Nomenclature, ParseError, ParseErrorKind, Score, Severity};
use std::fs;
use std::path::{Path, PathBuf};

pub fn root() -> PathBuf {
    Path::new(env!("CARGO_MANIFEST_DIR")).join("../..")
}

/// A file of `tests/stored`, which is not empty.
pub fn stored(name: &str) -> String {
    let text = fs::read_to_string(root().join("tests/stored").join(name)).unwrap();
    assert!(!text.is_empty(), "{name}");
    text
}

/// The stored lines without a mark, which come first, as many as there are facts.
pub fn stored_lines() -> String {
    let count = stored("facts").lines().count();
    let stored = fs::read(root().join("crates/test_vectors/stdin")).unwrap();
    let lines = stored.split_inclusive(|byte| *byte == b'\n');
    let first = String::from_utf8(lines.take(count).flatten().copied().collect()).unwrap();
    assert_eq!(first.lines().count(), count);
    first
}

/// The stored lines that are vectors, which may be incomplete.
pub fn vectors() -> Vec<Cvss> {
    let lines = stored_lines();
    let parsed = lines.lines().map(Cvss::parse_incomplete);
    parsed.filter_map(Result::ok).collect()
}

pub const NOMENCLATURES: [Nomenclature; 4] = [
    Nomenclature::B,
    Nomenclature::BE,
    Nomenclature::BT,
    Nomenclature::BTE,
];

fn scored(score: Option<Score>, severity: Option<Severity>) -> String {
    match (score, severity) {
        (Some(score), Some(severity)) => format!("{score} {severity}"),
        (None, None) => "- -".to_string(),
        _ => panic!("a score or a severity is missing"),
    }
}

/// The facts of `tests/stored/facts` about scores.
pub fn score_facts(cvss: &Cvss) -> Vec<String> {
    let mut facts = vec![
        scored(Some(cvss.score()), Some(cvss.severity())),
        scored(Some(cvss.base_score()), Some(cvss.base_severity())),
        scored(cvss.temporal_score(), cvss.temporal_severity()),
        scored(cvss.environmental_score(), cvss.environmental_severity()),
    ];
    for nomenclature in NOMENCLATURES {
        let score = cvss.nomenclature_score(nomenclature);
        facts.push(score.map_or("-".to_string(), |score| score.to_string()));
    }
    facts
}

/// The facts of a vector, as `tests/stored/facts.py` prints them.
pub fn vector_facts(cvss: &Cvss) -> String {
    let nomenclature = cvss.nomenclature();
    let is_complete = cvss.is_complete();
    let mut facts = vec![
        cvss.to_string(),
        cvss.version().to_string(),
        nomenclature.map_or("-".to_string(), |own| own.to_string()),
        if is_complete {
            "complete"
        } else {
            "incomplete"
        }
        .to_string(),
    ];
    facts.extend(score_facts(cvss));
    for metric in cvss.metrics() {
        facts.push(format!("{}={}", metric.name(), metric.value()));
    }
    facts.join(" ")
}

/// The number that the library has for the kind of an error.
pub fn kind_number(error: &ParseError) -> usize {
    let kinds = [
        ParseErrorKind::InvalidComponent,
        ParseErrorKind::InvalidPrefix,
        ParseErrorKind::UnsupportedVersion,
        ParseErrorKind::UnknownMetric,
        ParseErrorKind::InvalidValue,
        ParseErrorKind::DuplicateMetric,
        ParseErrorKind::MissingMetric,
        ParseErrorKind::NotUtf8,
    ];
    1 + kinds.iter().position(|kind| *kind == error.kind()).unwrap()
}

/// The facts of an error, as `tests/stored/facts.py` prints them.
pub fn error_facts(error: &ParseError) -> String {
    let metric = error.metric().unwrap_or("-");
    format!("{} {metric} {error}", kind_number(error))
}

pub fn facts(parsed: &Result<Cvss, ParseError>) -> String {
    parsed.as_ref().map_or_else(error_facts, vector_facts)
}
