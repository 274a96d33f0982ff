//! The vectors that are kept in the repository. What is expected of them is what the second
//! implementation in `reference/` says.

mod common;

use common::{facts, score_facts, stored, stored_lines, vectors};
use cvss_proved::{
    metrics, score, score_incomplete, score_line, score_line_incomplete, score_lines,
    score_lines_incomplete, scores, scores_incomplete, Cvss, Group, Metric, MetricType, Score,
    Values, Version,
};

#[test]
fn stored_lines_have_their_facts() {
    let (lines, facts_of_lines) = (stored_lines(), stored("facts"));
    for (line, expected) in lines.lines().zip(facts_of_lines.lines()) {
        assert_eq!(facts(&Cvss::parse_incomplete(line)), expected, "{line}");
        let bytes = Cvss::parse_bytes_incomplete(line.as_bytes());
        assert_eq!(facts(&bytes), expected, "{line}");
    }
}

#[test]
fn stored_lines_have_their_scores() {
    let (lines, expected) = (stored_lines(), stored("score_lines"));
    assert_eq!(score_lines(lines.as_bytes()), expected);
    assert_eq!(lines.lines().count(), expected.lines().count());
    for (line, expected) in lines.lines().zip(expected.lines()) {
        assert_eq!(score_line(line.as_bytes()), expected, "{line}");
        let parsed = match Cvss::parse(line) {
            Ok(cvss) => format!("{cvss} {} {}", cvss.score(), cvss.severity()),
            Err(error) => format!("error: {error}"),
        };
        assert_eq!(parsed, expected, "{line}");
    }
}

/// An incomplete vector has the canonical text, the score and the severity that its facts begin with, if
/// that is allowed; other lines are the same.
#[test]
fn lines_may_be_incomplete() {
    let lines = stored_lines();
    let all = score_lines_incomplete(lines.as_bytes());
    assert_eq!(all.lines().count(), lines.lines().count());
    let (expected, facts) = (stored("score_lines"), stored("facts"));
    let rows = expected.lines().zip(facts.lines()).zip(all.lines());
    let mut incomplete = 0;
    for (line, ((expected, facts), own)) in lines.lines().zip(rows) {
        let words: Vec<&str> = facts.split(' ').collect();
        let is_incomplete = words.get(3) == Some(&"incomplete");
        let expected = if is_incomplete {
            incomplete += 1;
            [words[0], words[4], words[5]].join(" ")
        } else {
            expected.to_string()
        };
        assert_eq!(own, expected, "{line}");
        assert_eq!(score_line_incomplete(line.as_bytes()), expected, "{line}");
    }
    assert!(incomplete > 0);
}

/// A vector's values and its scores by themselves are those of the vector, whose facts are tried above.
#[test]
fn values_and_scores_are_those_of_the_vector() {
    for line in stored_lines().lines() {
        let (values, all) = (Values::parse_incomplete(line), scores_incomplete(line));
        let Ok(cvss) = Cvss::parse_incomplete(line) else {
            let own = (values, all, score_incomplete(line));
            assert_eq!(own, (None, None, None), "{line}");
            continue;
        };
        assert_eq!(all, Some(cvss.scores()), "{line}");
        assert_eq!(score_incomplete(line), Some(cvss.score()), "{line}");
        if cvss.is_complete() {
            let own = (Values::parse(line), scores(line), score(line));
            assert_eq!(own, (values, all, Some(cvss.score())), "{line}");
        } else {
            let own = (Values::parse(line), scores(line), score(line));
            assert_eq!(own, (None, None, None), "{line}");
        }
        assert_values(&values.unwrap(), &cvss);
    }
}

fn assert_values(values: &Values, cvss: &Cvss) {
    let read = (values.version(), values.score(), values.nomenclature());
    let expected = (cvss.version(), cvss.score(), cvss.nomenclature());
    assert_eq!(read, expected, "{cvss}");
    let types = metrics(cvss.version());
    let own = cvss.metrics();
    for metric in types {
        let value = own.iter().find(|own| own.name() == metric.name);
        assert_eq!(
            values.value(metric.name),
            value.map(Metric::value),
            "{cvss}"
        );
    }
    let others = &values.fields()[types.len()..];
    assert!(others.iter().all(|field| *field == [0; 8]), "{cvss}");
}

/// The struct of scores has those that the methods return.
#[test]
fn scores_are_those_of_the_methods() {
    for cvss in vectors() {
        let scores = cvss.scores();
        assert_eq!(scores.version, cvss.version());
        assert_eq!(
            (scores.score, scores.base),
            (cvss.score(), cvss.base_score())
        );
        let others = (scores.temporal, scores.environmental);
        assert_eq!(others, (cvss.temporal_score(), cvss.environmental_score()));
        assert_eq!(scores.nomenclature, cvss.nomenclature());
    }
}

/// Where no number has more than seven decimals.
#[test]
fn vectors_have_their_explanations() {
    for explanation in stored("explanations").lines() {
        let text = explanation.split(r#""vector":""#).nth(1).unwrap();
        let text = text.split('"').next().unwrap();
        let cvss = Cvss::parse_incomplete(text).unwrap();
        assert_eq!(cvss.explain(), explanation);
    }
}

/// The records were written by hand from FIRST's JSON schemas.
#[test]
fn vectors_have_their_records() {
    let records = stored("records");
    assert_eq!(records.lines().count(), 3);
    for record in records.lines() {
        let text = record.split(r#""vectorString":""#).nth(1).unwrap();
        let text = text.split('"').next().unwrap();
        assert_eq!(Cvss::parse(text).unwrap().record(), record);
    }
}

/// What is not defined scores as what is absent (CVSS v2 guide, section 2.2; v3.1, section 3; v4.0,
/// section 3).
#[test]
fn what_is_not_defined_scores_as_absent() {
    for cvss in vectors() {
        let shorter = cvss.without_not_defined();
        assert_eq!(score_facts(&shorter), score_facts(&cvss), "{cvss}");
        let is_defined = |metric: &Metric| !["X", "ND"].contains(&metric.value());
        let defined: Vec<Metric> = cvss.metrics().into_iter().filter(is_defined).collect();
        assert!(
            shorter.metrics() == defined || defined.is_empty() && shorter == cvss,
            "{cvss}"
        );
    }
}

#[test]
fn a_metric_that_is_set_leaves_the_others() {
    for cvss in vectors() {
        assert_eq!(cvss.with_metrics(&[]).as_ref(), Ok(&cvss));
        let own = cvss.with_metrics(&[("IR", "H")]).unwrap();
        let is_own = |metric: &Metric| (metric.name(), metric.value()) == ("IR", "H");
        assert!(own.metrics().iter().any(is_own), "{cvss}");
        let others = |cvss: &Cvss| -> Vec<Metric> {
            let metrics = cvss.metrics().into_iter();
            metrics.filter(|metric| metric.name() != "IR").collect()
        };
        assert_eq!(others(&own), others(&cvss), "{cvss}");
    }
}

/// Each metric that a vector has is in the table of its version, with its value.
#[test]
fn metrics_are_described_in_words() {
    for cvss in vectors() {
        let letters: Vec<String> = cvss
            .described()
            .iter()
            .map(|(metric, value)| format!("{}:{}", metric.name, value.value))
            .collect();
        let prefix = cvss.as_str().len() - letters.join("/").len();
        assert_eq!(cvss.as_str()[prefix..], letters.join("/"), "{cvss}");
    }
    let count = |version, group| {
        let is_own = |metric: &&MetricType| metric.group == group;
        metrics(version).iter().filter(is_own).count()
    };
    // CVSS v2 guide, section 2; v3.1 specification, table 1; v4.0 specification, section 1.2
    for (version, group, expected) in [
        (Version::V20, Group::Base, 6),
        (Version::V20, Group::Environmental, 5),
        (Version::V31, Group::Base, 8),
        (Version::V31, Group::Temporal, 3),
        (Version::V40, Group::Base, 11),
        (Version::V40, Group::Supplemental, 6),
    ] {
        assert_eq!(count(version, group), expected, "{version} {group}");
    }
    assert_eq!(metrics(Version::V30), metrics(Version::V31));
}

/// The scores of v2 are those of the CVSS v2 guide, section 3.3.1, and the others those of the second
/// implementation.
#[test]
fn scores_count_all_metrics() {
    let v2 = "AV:N/AC:L/Au:N/C:N/I:N/A:C";
    let v3 = "CVSS:3.1/AV:N/AC:L/PR:N/UI:N/S:U/C:H/I:H/A:H";
    let v4 = "CVSS:4.0/AV:N/AC:L/AT:N/PR:N/UI:N/VC:H/VI:H/VA:H/SC:N/SI:N/SA:N";
    for (base, metrics, all, base_score) in [
        (v2, "/E:F/RL:OF/RC:C", 64, 78),
        (v2, "/E:F/RL:OF/RC:C/CDP:H/TD:H/CR:M/IR:M/AR:H", 92, 78),
        (v3, "", 98, 98),
        (v3, "/E:X/RL:X/CR:X", 98, 98),
        (v3, "/E:U/RL:O/RC:C", 85, 98),
        (v3, "/E:U/RL:O/RC:C/MAV:P", 59, 98),
        (v3, "/MAV:P", 68, 98),
        (v4, "/E:U", 81, 93),
    ] {
        let text = format!("{base}{metrics}");
        let cvss = Cvss::parse(&text).unwrap();
        assert_eq!(cvss.score().tenths(), all, "{text}");
        assert_eq!(cvss.base_score().tenths(), base_score, "{text}");
        assert_eq!(score(&text), Score::from_tenths(all), "{text}");
        assert_eq!(
            Values::parse(&text).unwrap().score().tenths(),
            all,
            "{text}"
        );
    }
}

/// CVSS v2 guide, section 3.3.1: a base score of 7.8; section 3.3.2: one of 10.0.
#[test]
fn vectors_are_ordered_by_score() {
    let lower = Cvss::try_from("AV:N/AC:L/Au:N/C:N/I:N/A:C").unwrap();
    let higher = Cvss::try_from("AV:N/AC:L/Au:N/C:C/I:C/A:C").unwrap();
    assert!(lower < higher);
    assert_ne!(lower, higher);
    // 2.5 with all metrics, by the second implementation
    let reduced = Cvss::try_from("AV:N/AC:L/Au:N/C:C/I:C/A:C/TD:L").unwrap();
    assert!(reduced < lower);
}

#[test]
fn a_long_line_is_scored_among_others() {
    let long = "x".repeat(200_000);
    let expected = [
        score_line(b""),
        score_line(long.as_bytes()),
        score_line(b""),
    ];
    let lines = format!("\r\n{long}\n\nx");
    assert_eq!(score_lines(lines.as_bytes()), expected.join("\n") + "\n");
    assert!(expected[1].ends_with(&format!("`{long}`")));
}
