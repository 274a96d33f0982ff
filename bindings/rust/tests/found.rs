//! Vectors in texts. The matches are those of the second implementation in `reference/`.

mod common;

use common::root;
use cvss_proved::{find, find_incomplete, Cvss, Match};
use std::fs;

/// What `cvss find` prints for a match in this line.
fn report(line: usize, found: &Match) -> String {
    let result = match &found.found {
        Ok(cvss) => format!("{cvss} {} {}", cvss.score(), cvss.severity()),
        Err(error) => format!("error: {error}"),
    };
    format!("{line}:{} {result}\n", found.offset + 1)
}

#[test]
fn stored_texts_have_their_matches() {
    let folder = root().join("tests/stored");
    let texts = fs::read(folder.join("texts")).unwrap();
    let mut reports = String::new();
    for (index, text) in texts.split(|byte| *byte == b'\n').enumerate() {
        for found in find(text) {
            let end = found.offset + found.text.len();
            assert_eq!(&text[found.offset..end], found.text.as_bytes());
            reports += &report(index + 1, &found);
        }
    }
    let expected = fs::read_to_string(folder.join("found")).unwrap();
    assert!(!expected.is_empty());
    for (own, expected) in reports.lines().zip(expected.lines()) {
        assert_eq!(own, expected);
    }
    assert_eq!(reports, expected);
}

#[test]
fn the_same_matches_are_found_with_incomplete_vectors() {
    let texts = fs::read(root().join("tests/stored/texts")).unwrap();
    let (complete, any): (Vec<_>, Vec<_>) =
        (find(&texts).collect(), find_incomplete(&texts).collect());
    assert_eq!(complete.len(), any.len());
    let mut incomplete = 0;
    for (one, other) in complete.iter().zip(&any) {
        assert_eq!((one.offset, one.text), (other.offset, other.text));
        assert_eq!(other.found, Cvss::parse_incomplete(other.text));
        assert_eq!(one.found, Cvss::parse(one.text));
        incomplete += usize::from(one.found.is_err() && other.found.is_ok());
    }
    assert!(incomplete > 0);
}

/// The part of a run after a percent sign is no text of its own, as in `cvss find`.
#[test]
fn a_link_has_one_match() {
    let vector = "CVSS:3.1/AV:N/AC:L/PR:N/UI:N/S:U/C:H/I:H/A:H";
    let link = format!("https://x/?v3={vector}%20v2:AV:N/AC:L/Au:N/C:N/I:N/A:C");
    let texts = |text: &str| -> Vec<(usize, String)> {
        let found = find(text).map(|own| (own.offset, own.found.unwrap().to_string()));
        found.collect()
    };
    assert_eq!(texts(&link), [(14, vector.to_string())]);
    let twice = format!("{link} {link}");
    let second = (15 + link.len(), vector.to_string());
    assert_eq!(texts(&twice), [(14, vector.to_string()), second]);
}

#[test]
fn nothing_is_found_after_the_last_match() {
    let mut found = find("AV:N/AC:L/Au:N/C:N/I:N/A:C ");
    assert!(found.next().is_some());
    assert!(found.next().is_none() && found.next().is_none());
    assert_eq!(find("").count() + find(b"\xff").count(), 0);
}
