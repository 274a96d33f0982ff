//! Metrics that are set, vectors that are made from metrics, what errors quote, and scores by
//! nomenclature.

mod common;

use common::{kind_number, score_facts};
use cvss_proved::{Cvss, ParseError, Score, Severity, Version};
use std::path::Path;
use std::{env, fs};

/// A column of a row that `tests/stored/expected.py` has written.
fn unescaped(column: &str) -> Option<Vec<u8>> {
    if column == "\\N" {
        return None;
    }
    let mut segments = column.split("\\x");
    let mut bytes = segments.next()?.as_bytes().to_vec();
    for segment in segments {
        bytes.push(u8::from_str_radix(&segment[..2], 16).unwrap());
        bytes.extend(segment[2..].bytes());
    }
    Some(bytes)
}

type Outcome = (Option<String>, Option<String>);

/// The text of a vector; or the number of the kind of the error, the metric and what is quoted.
fn outcome(result: Result<Cvss, ParseError>) -> Outcome {
    match result {
        Ok(cvss) => (Some(cvss.to_string()), None),
        Err(error) => {
            let number = kind_number(&error);
            let metric = error.metric().unwrap_or("-");
            let value = error.value().unwrap_or("");
            (None, Some(format!("{number} {metric} {value}")))
        }
    }
}

/// The outcome of a vector that has to be complete: the first missing base metric of an incomplete one of v3.
fn completed(own: Outcome) -> Outcome {
    let text = own.0.as_deref().unwrap_or_default();
    let is_missing =
        |name: &&str| text.starts_with("CVSS:3") && !text.contains(&format!("/{name}:"));
    let base = ["AV", "AC", "PR", "UI", "S", "C", "I", "A"];
    match base.iter().find(|name| is_missing(name)) {
        Some(name) => (None, Some(format!("7 {name} "))),
        None => own,
    }
}

/// The metrics that a text joins; `None` if one of them has no colon.
fn metrics_of(text: &str) -> Option<Vec<(&str, &str)>> {
    let segments = text.split('/').filter(|_| !text.is_empty());
    segments.map(|segment| segment.split_once(':')).collect()
}

/// The metrics before the index are accepted by themselves, and with the one at the index the error is
/// the same.
fn assert_index(cvss: &Cvss, metrics: &[(&str, &str)], error: &ParseError) {
    if let Some(index) = error.index() {
        assert!(cvss.with_metrics(&metrics[..index]).is_ok(), "{metrics:?}");
        let own = cvss.with_metrics(&metrics[..=index]).unwrap_err();
        assert_eq!(own, *error, "{metrics:?}");
    }
}

/// A row of `tests/stored/calls`.
struct Row(Vec<Option<Vec<u8>>>);

impl Row {
    fn bytes(&self, index: usize) -> &[u8] {
        self.0[index].as_deref().unwrap()
    }

    fn text(&self, index: usize) -> Option<String> {
        let column = self.0[index].clone();
        column.map(|column| String::from_utf8(column).unwrap())
    }

    fn metrics(&self, index: usize) -> Option<Vec<(&str, &str)>> {
        let text = std::str::from_utf8(self.bytes(index)).ok();
        text.and_then(metrics_of)
    }

    /// How many calls on metrics were tried.
    fn assert_metrics(&self, parsed: &Result<Cvss, ParseError>) -> usize {
        let mut tried = 0;
        if let Some(metrics) = self.metrics(1) {
            let set = parsed.clone().and_then(|cvss| cvss.with_metrics(&metrics));
            if let (Ok(cvss), Err(error)) = (parsed, &set) {
                assert_index(cvss, &metrics, error);
            }
            assert_eq!(outcome(set), (self.text(4), self.text(5)));
            tried += 1;
        }
        let version = self.text(2).unwrap().parse::<Version>().ok();
        if let Some((version, metrics)) = version.zip(self.metrics(3)) {
            let expected = (self.text(6), self.text(7));
            let any = Cvss::from_metrics_incomplete(version, &metrics);
            assert_eq!(outcome(any), expected);
            let complete = Cvss::from_metrics(version, &metrics);
            assert_eq!(outcome(complete), completed(expected));
            tried += 1;
        }
        tried
    }
}

/// What is expected is what the second implementation in `reference/` says. The variable `CVSS_ROWS`
/// names a file with other rows.
#[test]
fn calls_have_their_results() {
    let stored = Path::new(env!("CARGO_MANIFEST_DIR")).join("../../tests/stored/calls");
    let rows = fs::read_to_string(env::var_os("CVSS_ROWS").map_or(stored, Into::into)).unwrap();
    let mut tried = 0;
    for line in rows.lines() {
        let row = Row(line.split('\t').map(unescaped).collect());
        let parsed = Cvss::parse_bytes_incomplete(row.bytes(0));
        tried += row.assert_metrics(&parsed);
        assert_eq!(outcome(parsed.clone()).1, row.text(8), "{line}");
        let error = Cvss::parse_bytes(row.bytes(0)).err();
        assert_eq!(error.map(|error| error.to_string()), row.text(9), "{line}");
        let facts = parsed.map_or(vec!["-".to_string(); 8], |cvss| score_facts(&cvss));
        let expected = (10..14).map(|index| row.text(index).unwrap_or("-".to_string()));
        assert_eq!(facts[4..], expected.collect::<Vec<_>>(), "{line}");
    }
    assert!(tried > rows.lines().count());
}

/// Names and values of v3 and v4.0 are in any ASCII case. A metric of any version that is there twice is
/// rejected.
#[test]
fn metrics_are_set_in_any_case() {
    for (text, own, expected) in [
        ("AV:N/AC:L/Au:N/C:N/I:N/A:C/TD:L", ("TD", "H"), "/TD:H"),
        ("CVSS:3.0/AV:N/MAV:L", ("mav", "p"), "/MAV:P"),
        ("CVSS:3.1/AV:N/CR:L", ("Cr", "h"), "/CR:H"),
        (
            "CVSS:4.0/AV:N/AC:L/AT:N/PR:N/UI:N/VC:L/VI:L/VA:L/SC:N/SI:N/SA:N/MSI:L",
            ("msi", "s"),
            "/MSI:S",
        ),
    ] {
        let cvss = Cvss::parse_incomplete(text).unwrap();
        let others = &text[..text.rfind('/').unwrap()];
        let set = cvss.with_metrics(&[own]).unwrap();
        assert_eq!(set.as_str(), format!("{others}{expected}"));
        let name = expected[1..].split(':').next().unwrap();
        let twice = outcome(cvss.with_metrics(&[own, (name, own.1)])).1.unwrap();
        assert_eq!(twice, format!("6 {name} "), "{text}");
        for (name, quoted) in [("\u{17f}i", "\u{17f}I"), ("", "")] {
            let unknown = outcome(cvss.with_metrics(&[(name, "h")])).1.unwrap();
            let is_same = unknown.eq_ignore_ascii_case(&format!("4 - {quoted}"));
            assert!(is_same, "{text}: {unknown}");
        }
    }
    let v2 = Cvss::parse("AV:N/AC:L/Au:N/C:N/I:N/A:C").unwrap();
    let unknown = outcome(v2.with_metrics(&[("td", "h")]));
    assert_eq!(unknown, (None, Some("4 - td".to_string())));
}

#[test]
fn metrics_of_v4_are_set_in_the_standards_order() {
    let text = "CVSS:4.0/AV:N/AC:L/AT:N/PR:N/UI:N/VC:L/VI:L/VA:L/SC:N/SI:N/SA:N/CR:H/S:P";
    let cvss = Cvss::parse(text).unwrap();
    let own = cvss.with_metrics(&[("MSI", "S"), ("CR", "L")]).unwrap();
    let expected = "CVSS:4.0/AV:N/AC:L/AT:N/PR:N/UI:N/VC:L/VI:L/VA:L/SC:N/SI:N/SA:N/CR:L/MSI:S/S:P";
    assert_eq!(own.as_str(), expected);
    let twice = cvss.with_metrics(&[("MSI", "S"), ("MSI", "H")]);
    assert_eq!(twice.unwrap_err().metric(), Some("MSI"));
    let unknown = cvss.with_metrics(&[("MS", "C")]).unwrap_err();
    assert_eq!(unknown.message(), "unknown CVSS metric name: `MS`");
    let invalid = cvss.with_metrics(&[("CR", "Q")]).unwrap_err();
    let message = "invalid CVSSv4 CR (Confidentiality Requirements) metric: `Q`";
    assert_eq!(invalid.message(), message);
}

/// The bounds are those of the table in section 5 of the v3.1 specification, and of NVD for v2.
#[test]
fn scores_have_severities() {
    for tenths in 0..=100 {
        let score = Score::from_tenths(tenths).unwrap();
        let (v2, v3) = match tenths {
            0 => (Severity::Low, Severity::None),
            1..=39 => (Severity::Low, Severity::Low),
            40..=69 => (Severity::Medium, Severity::Medium),
            70..=89 => (Severity::High, Severity::High),
            _ => (Severity::High, Severity::Critical),
        };
        assert_eq!(score.severity(Version::V20), v2, "{score}");
        for version in [Version::V30, Version::V31, Version::V40] {
            assert_eq!(score.severity(version), v3, "{score}");
        }
    }
}
