//! What an error has, beside its message.

use cvss_proved::{score_line, Cvss, ParseErrorKind, Version};

/// An error has the metric that its message names, and the part of the text that it quotes, as the
/// message has them.
#[test]
fn errors_have_the_rejected_value() {
    let long = "x".repeat(5000);
    for (text, kind, metric, value) in [
        ("AV/N", ParseErrorKind::InvalidComponent, None, Some("AV")),
        (
            "CVS:3.1/AV:N",
            ParseErrorKind::InvalidPrefix,
            None,
            Some("CVS"),
        ),
        (
            "CVSS:3.2/AV:N",
            ParseErrorKind::UnsupportedVersion,
            None,
            Some("3.2"),
        ),
        (
            "CVSS:3.1/xx:N",
            ParseErrorKind::UnknownMetric,
            None,
            Some("XX"),
        ),
        (
            "CVSS:3.1/é:N",
            ParseErrorKind::UnknownMetric,
            None,
            Some("é"),
        ),
        (
            "CVSS:3.1/av:a`b",
            ParseErrorKind::InvalidValue,
            Some("AV"),
            Some("A`B"),
        ),
        (
            "AV:/AC:L",
            ParseErrorKind::InvalidValue,
            Some("AV"),
            Some(""),
        ),
        (
            "CVSS:3.1/AV:N/av:n",
            ParseErrorKind::DuplicateMetric,
            Some("AV"),
            None,
        ),
        ("AV:N/AC:L", ParseErrorKind::MissingMetric, Some("Au"), None),
        (
            "CVSS:3.1/AV:N/AC:L",
            ParseErrorKind::MissingMetric,
            Some("PR"),
            None,
        ),
        ("", ParseErrorKind::InvalidComponent, None, Some("")),
        (&long, ParseErrorKind::InvalidComponent, None, Some(&long)),
    ] {
        let error = Cvss::parse(text).unwrap_err();
        assert_eq!((error.kind(), error.metric()), (kind, metric), "{text}");
        assert_eq!((error.value(), error.index()), (value, None), "{text}");
        let quoted = value.unwrap_or_default();
        assert!(error.message().contains(quoted), "{error}");
    }
}

#[test]
fn a_text_that_is_not_utf8_is_rejected() {
    assert_eq!(score_line(b"AV:\xff"), "error: not UTF-8");
    for parse in [Cvss::parse_bytes, Cvss::parse_bytes_incomplete] {
        let error = parse(b"AV:\xff").unwrap_err();
        assert_eq!(error.kind(), ParseErrorKind::NotUtf8);
        assert_eq!(
            (error.metric(), error.value(), error.message()),
            (None, None, "not UTF-8")
        );
    }
}

#[test]
fn the_first_rejected_metric_has_its_index() {
    let cvss = Cvss::parse("CVSS:3.1/AV:N/AC:L/PR:N/UI:N/S:U/C:H/I:H/A:H").unwrap();
    for (metrics, kind, metric, index) in [
        (
            &[("E", "P"), ("XX", "N"), ("RC", "Q")][..],
            ParseErrorKind::UnknownMetric,
            None,
            1,
        ),
        (
            &[("E", "P"), ("RL", "O"), ("RC", "Q"), ("XX", "N")],
            ParseErrorKind::InvalidValue,
            Some("RC"),
            2,
        ),
        (&[("AV", "Q")], ParseErrorKind::InvalidValue, Some("AV"), 0),
        (
            &[("E", "P"), ("e", "u")],
            ParseErrorKind::DuplicateMetric,
            Some("E"),
            1,
        ),
        (
            &[("E", "P"), ("RL", "O:O")],
            ParseErrorKind::InvalidComponent,
            None,
            1,
        ),
        (
            &[("E", "P"), ("RL", "O/RC:C"), ("E", "Q")],
            ParseErrorKind::InvalidComponent,
            None,
            1,
        ),
        (
            &[("E", "Q"), ("RL", "O/RC:C")],
            ParseErrorKind::InvalidValue,
            Some("E"),
            0,
        ),
    ] {
        let set = cvss.with_metrics(metrics).unwrap_err();
        let made = Cvss::from_metrics(Version::V31, metrics).unwrap_err();
        for error in [set, made] {
            assert_eq!(
                (error.kind(), error.metric()),
                (kind, metric),
                "{metrics:?}"
            );
            assert_eq!(error.index(), Some(index), "{metrics:?}");
        }
    }
    let missing = Cvss::from_metrics(Version::V40, &[("AV", "N")]).unwrap_err();
    assert_eq!((missing.metric(), missing.index()), (Some("AC"), None));
}

#[test]
fn rejected_metrics_are_quoted() {
    let cvss = Cvss::parse("CVSS:3.1/AV:N/AC:L/PR:N/UI:N/S:U/C:H/I:H/A:H").unwrap();
    for quoted in ["`", "A`B", "``", "A\n`", &"`".repeat(3000)] {
        let error = cvss.with_metrics(&[("E", quoted)]).unwrap_err();
        assert_eq!(error.kind(), ParseErrorKind::InvalidValue);
        assert_eq!((error.metric(), error.value()), (Some("E"), Some(quoted)));
    }
    for metric in [
        ("E", "P/RC:C"),
        ("E", "A/RC:C"),
        ("E/RC:C/E", "A"),
        ("/", ""),
    ] {
        let component = format!("{}:{}", metric.0, metric.1);
        let set = cvss.with_metrics(&[metric]).unwrap_err();
        let made = Cvss::from_metrics(Version::V31, &[metric]).unwrap_err();
        for error in [set, made] {
            assert_eq!(error.kind(), ParseErrorKind::InvalidComponent);
            assert_eq!((error.metric(), error.value()), (None, Some(&*component)));
            let message = format!("invalid CVSS metric group component: `{component}`");
            assert_eq!(error.message(), message);
        }
    }
}
