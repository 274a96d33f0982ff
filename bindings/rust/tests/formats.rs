//! How values are printed, and read back.

use cvss_proved::{Cvss, Nomenclature, Score, Severity, Version};
use std::fmt::Display;

#[test]
fn each_text_that_is_printed_is_read_back() {
    for tenths in 0..=100 {
        let score = Score::from_tenths(tenths).unwrap();
        assert_eq!(score.to_string().parse(), Ok(score));
    }
    assert_eq!(Score::from_tenths(101), None);
    assert_eq!(Score::try_from("9.80").ok(), None);
    assert_eq!("critical".parse(), Ok(Severity::Critical));
    assert_eq!("3.1".parse(), Ok(Version::V31));
    assert_eq!(Nomenclature::try_from("CVSS-BT"), Ok(Nomenclature::BT));
    assert!("cvss-bt".parse::<Nomenclature>().is_err());
}

/// FIRST's JSON schemas print severities in capitals.
#[test]
fn severities_are_read_in_any_case() {
    for (text, severity) in [
        ("NONE", Severity::None),
        ("Low", Severity::Low),
        ("mEDIUM", Severity::Medium),
        ("HIGH", Severity::High),
        ("Critical", Severity::Critical),
    ] {
        assert_eq!(text.parse(), Ok(severity));
        assert_eq!(Severity::try_from(text), Ok(severity));
    }
    for text in ["", "HIGH ", "H\u{131}GH", "severe"] {
        assert!(text.parse::<Severity>().is_err(), "{text}");
    }
}

/// With a precision a score is formatted as the `f64` is, and without one as the `f64` is with one
/// decimal.
#[test]
fn scores_are_formatted_as_floats() {
    for tenths in 0..=100 {
        let score = Score::from_tenths(tenths).unwrap();
        let value = f64::from(tenths) / 10.0;
        for precision in 0..=4 {
            assert_eq!(
                format!("{score:.precision$}"),
                format!("{value:.precision$}")
            );
            assert_eq!(
                format!("{score:#^+9.precision$}"),
                format!("{value:#^+9.precision$}")
            );
        }
        for width in 0..=6 {
            assert_eq!(format!("{score:width$}"), format!("{value:width$.1}"));
            assert_eq!(format!("{score:_<width$}"), format!("{value:_<width$.1}"));
            assert_eq!(format!("{score:*^+width$}"), format!("{value:*^+width$.1}"));
            assert_eq!(format!("{score:0width$}"), format!("{value:0width$.1}"));
        }
    }
    let score = Score::from_tenths(98).unwrap();
    assert_eq!(
        format!("{score:.1} {score:.0} {score:.2} [{score:>6}]"),
        "9.8 10 9.80 [   9.8]"
    );
}

/// What else is printed is formatted as the `str` is.
#[test]
fn texts_are_formatted_as_strs() {
    let cvss = Cvss::parse_incomplete("CVSS:3.1/AV:N").unwrap();
    let error = Cvss::parse("CVSS:3.1/AV:Q").unwrap_err();
    let unknown = "severe".parse::<Severity>().unwrap_err();
    let of_metrics = cvss.with_metrics(&[("CR", "Q/")]).unwrap_err();
    let printed: [&dyn Display; 7] = [
        &cvss,
        &error,
        &unknown,
        &of_metrics,
        &cvss.version(),
        &cvss.severity(),
        &Nomenclature::BTE,
    ];
    for value in printed {
        let text = value.to_string();
        assert_eq!(format!("[{value:<70}]"), format!("[{text:<70}]"));
        assert_eq!(format!("[{value:*>70}]"), format!("[{text:*>70}]"));
        assert_eq!(format!("[{value:.2}]"), format!("[{text:.2}]"));
    }
}
