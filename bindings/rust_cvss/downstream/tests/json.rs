//! JSON of an advisory, there and back; vectors that are built by hand; and errors.

use cvss::{v2, v3, v4, Cvss, Error, Severity};
use downstream::Advisory;

const JSON: &str = r#"{"id":"A-1","cvss":"CVSS:3.1/AV:N/AC:L/PR:N/UI:N/S:U/C:H/I:H/A:H"}"#;

#[test]
fn advisories_are_read_and_written() {
    let advisory: Advisory = serde_json::from_str(JSON).unwrap();
    assert_eq!(advisory.severity(), Some(Severity::Critical));
    assert_eq!(advisory.listing()[0], "Attack Vector: Network");
    assert_eq!(serde_json::to_string(&advisory).unwrap(), JSON);
    let wrong = JSON.replace("AV:N", "AV:Q");
    let error = serde_json::from_str::<Advisory>(&wrong).unwrap_err();
    let reason = "invalid CVSSv3 AV (Attack Vector) metric: `Q`";
    assert!(error.to_string().starts_with(reason), "{error}");
}

#[test]
fn every_type_that_is_serialized_is_a_string() {
    let texts = (
        "AV:N/AC:L/Au:N/C:N/I:N/A:C",
        "CVSS:3.0/AV:N",
        "CVSS:4.0/AV:N/AC:L/AT:N/PR:N/UI:N/VC:H/VI:H/VA:H/SC:N/SI:N/SA:N",
        "CVSS-BTE",
        "medium",
    );
    let json = serde_json::to_string(&texts).unwrap();
    type Own = (
        v2::Vector,
        v3::Vector,
        v4::Vector,
        v4::Nomenclature,
        Severity,
    );
    let own: Own = serde_json::from_str(&json).unwrap();
    assert_eq!(serde_json::to_string(&own).unwrap(), json);
}

#[test]
fn vectors_are_built_by_hand() {
    let vector = v3::Vector {
        minor_version: 1,
        av: Some(v3::metric::base::AttackVector::Network),
        c: "H".parse().ok(),
        ..v3::Vector::default()
    };
    assert_eq!(
        Cvss::CvssV31(vector.clone()).to_string(),
        "CVSS:3.1/AV:N/C:H"
    );
    assert_eq!(f64::from(vector.impact()), 0.56);
    assert_eq!(Severity::from(vector.score()), Severity::Low);
}

#[test]
fn errors_are_matched() {
    match "AV:N/AC:L".parse::<Cvss>() {
        Err(Error::MissingMandatoryMetricV2 { metric_type }) => {
            assert_eq!(metric_type, v2::MetricType::Au);
        }
        other => panic!("{other:?}"),
    }
    let boxed: Box<dyn std::error::Error> = "x".parse::<Cvss>().unwrap_err().into();
    assert!(boxed.source().is_none());
}
