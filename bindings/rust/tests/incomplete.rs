//! A v3 vector that lacks base metrics is rejected, unless the caller allows it.

mod common;

use common::{error_facts, facts, stored, stored_lines};
use cvss_proved::{
    find, find_incomplete, score, score_incomplete, score_line, score_line_incomplete, score_lines,
    score_lines_incomplete, scores, scores_incomplete, Cvss, ParseError, ParseErrorKind, Values,
    Version,
};

const TEXT: &str = "CVSS:3.1/AV:N/C:H";
const MESSAGE: &str = "missing mandatory CVSSv3 AC (Attack Complexity) metric";

/// The words were written by hand. No other line that `parse_incomplete` accepts is rejected.
#[test]
fn incomplete_vectors_are_rejected() {
    for (text, expected) in stored("incomplete")
        .lines()
        .map(|row| row.split_once(' ').unwrap())
    {
        assert_eq!(error_facts(&Cvss::parse(text).unwrap_err()), expected);
        assert!(!Cvss::parse_incomplete(text).unwrap().is_complete());
    }
    for line in stored_lines().lines() {
        let any = Cvss::parse_incomplete(line);
        let is_incomplete = any.as_ref().is_ok_and(|cvss| !cvss.is_complete());
        let own = facts(&Cvss::parse(line));
        assert_eq!(own != facts(&any), is_incomplete, "{line}");
    }
}

fn is_rejected(parsed: Result<Cvss, ParseError>) {
    let error = parsed.unwrap_err();
    assert_eq!((error.message(), error.metric()), (MESSAGE, Some("AC")));
    assert_eq!(error.kind(), ParseErrorKind::MissingMetric);
    assert_eq!((error.value(), error.index()), (None, None));
}

fn is_accepted(parsed: Result<Cvss, ParseError>) {
    let cvss = parsed.unwrap();
    assert_eq!(cvss.as_str(), TEXT);
    assert!(!cvss.is_complete());
}

#[test]
fn each_way_to_a_vector_rejects_it() {
    is_rejected(Cvss::parse(TEXT));
    is_rejected(Cvss::parse_bytes(TEXT.as_bytes()));
    is_rejected(TEXT.parse());
    is_rejected(Cvss::try_from(TEXT));
    is_rejected(Cvss::from_metrics(Version::V31, &[("AV", "N"), ("C", "H")]));
    let found: Vec<_> = find(TEXT).map(|own| (own.text, own.found)).collect();
    assert_eq!((found.len(), found[0].0), (1, TEXT));
    is_rejected(found[0].1.clone());
}

#[test]
fn each_way_to_a_vector_has_a_twin_that_accepts_it() {
    is_accepted(Cvss::parse_incomplete(TEXT));
    is_accepted(Cvss::parse_bytes_incomplete(TEXT.as_bytes()));
    let metrics = [("AV", "N"), ("C", "H")];
    is_accepted(Cvss::from_metrics_incomplete(Version::V31, &metrics));
    let mut found = find_incomplete(TEXT);
    is_accepted(found.next().unwrap().found);
    assert!(found.next().is_none());
}

/// The score is that of the second implementation in `reference/`.
#[test]
fn each_way_to_a_score_has_a_twin_too() {
    assert_eq!((score(TEXT), scores(TEXT)), (None, None));
    assert_eq!(score_incomplete(TEXT).unwrap().tenths(), 36);
    assert_eq!(scores_incomplete(TEXT).unwrap().base.tenths(), 36);
    assert_eq!(Values::parse(TEXT), None);
    assert_eq!(Values::with(TEXT, |_| ()), None);
    let values = Values::parse_incomplete(TEXT);
    assert_eq!(values.unwrap().value("C"), Some("H"));
    assert_eq!(Values::with_incomplete(TEXT, |own| *own), values);
    let (line, rejected) = (format!("{TEXT} 3.6 low"), format!("error: {MESSAGE}"));
    assert_eq!(score_line(TEXT.as_bytes()), rejected);
    assert_eq!(score_line_incomplete(TEXT.as_bytes()), line);
    let lines = format!("{TEXT}\n");
    assert_eq!(score_lines(lines.as_bytes()), rejected + "\n");
    assert_eq!(score_lines_incomplete(lines.as_bytes()), line + "\n");
}

/// A vector that was accepted as incomplete stays so.
#[test]
fn an_incomplete_vector_can_be_used() {
    let cvss = Cvss::parse_incomplete("CVSS:3.1/AV:N/C:H/E:X").unwrap();
    let own = cvss.with_metrics(&[("E", "P")]).unwrap();
    assert_eq!(own.as_str(), "CVSS:3.1/AV:N/C:H/E:P");
    assert_eq!(cvss.with_metrics(&[]).unwrap(), cvss);
    let shorter = cvss.without_not_defined();
    assert_eq!((shorter.as_str(), shorter.is_complete()), (TEXT, false));
    assert_eq!((cvss.metrics().len(), cvss.described().len()), (3, 3));
    let quoted = format!("\"{cvss}\"");
    assert!(cvss.record().contains(&quoted) && cvss.explain().contains(&quoted));
}
