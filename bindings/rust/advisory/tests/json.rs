//! Each vector and each name is the same JSON string both ways, and each score the same number.

use advisory::{Advisory, Draft};
use cvss_proved::{metrics, Cvss, Nomenclature, Score, Severity, Version};
use serde::de::DeserializeOwned;
use serde::Serialize;
use std::fmt::Debug;

const JSON: &str = concat!(
    r#"{"id":"X-1","cvss":"CVSS:4.0/AV:N/AC:L/AT:N/PR:N/UI:N/VC:H/VI:H/VA:H/SC:H/SI:H/SA:H","#,
    r#""score":10.0,"severity":"critical","version":"4.0","nomenclature":"CVSS-B"}"#
);

#[test]
fn an_advisory_is_read_and_written() {
    let advisory: Advisory = serde_json::from_str(JSON).unwrap();
    let cvss = advisory.cvss.as_ref().unwrap();
    assert_eq!(
        (cvss.score().tenths(), cvss.severity()),
        (100, advisory.severity)
    );
    assert_eq!(advisory.score, Some(cvss.score()));
    assert_eq!(cvss.nomenclature(), advisory.nomenclature);
    assert_eq!(serde_json::to_string(&advisory).unwrap(), JSON);
}

#[test]
fn an_advisory_may_have_no_vector() {
    let json = r#"{"id":"X-2","cvss":null,"score":null,"severity":"HIGH","version":"3.1","nomenclature":null}"#;
    let advisory: Advisory = serde_json::from_str(json).unwrap();
    assert_eq!((advisory.cvss, advisory.severity), (None, Severity::High));
}

fn is_read_and_written<T: Serialize + DeserializeOwned + PartialEq + Debug>(value: &T, text: &str) {
    let json = serde_json::to_string(value).unwrap();
    assert_eq!(json, format!("\"{text}\""));
    assert_eq!(&serde_json::from_str::<T>(&json).unwrap(), value);
    assert_eq!(
        &serde_json::from_slice::<T>(json.as_bytes()).unwrap(),
        value
    );
    assert_eq!(
        &serde_json::from_reader::<_, T>(json.as_bytes()).unwrap(),
        value
    );
    let held = serde_json::to_value(value).unwrap();
    assert_eq!(&serde_json::from_value::<T>(held).unwrap(), value);
}

#[test]
fn each_score_is_a_number() {
    for tenths in 0..=100 {
        let score = Score::from_tenths(tenths).unwrap();
        let json = serde_json::to_string(&score).unwrap();
        assert_eq!(json, format!("{}.{}", tenths / 10, tenths % 10));
        assert_eq!(serde_json::from_str::<Score>(&json).unwrap(), score);
        let value = serde_json::to_value(score).unwrap();
        assert!(value.is_f64(), "{value}");
        assert_eq!(serde_json::from_value::<Score>(value).unwrap(), score);
    }
    for (json, tenths) in [
        ("0", 0),
        ("7", 70),
        ("10", 100),
        ("9.80", 98),
        ("1e1", 100),
        ("-0.0", 0),
    ] {
        let score: Score = serde_json::from_str(json).unwrap();
        assert_eq!(score.tenths(), tenths, "{json}");
    }
    for json in [
        "98", "11", "10.1", "9.85", "-1", "-0.1", "266", "1e300", "\"9.8\"", "null",
    ] {
        let error = serde_json::from_str::<Score>(json).unwrap_err().to_string();
        let expected = "expected a number from 0 to 10 with at most one decimal";
        assert!(error.contains(expected), "{json}: {error}");
    }
}

#[test]
fn each_name_is_read_and_written() {
    let severities = [
        (Severity::None, "none"),
        (Severity::Low, "low"),
        (Severity::Medium, "medium"),
        (Severity::High, "high"),
        (Severity::Critical, "critical"),
    ];
    for (value, text) in severities {
        is_read_and_written(&value, text);
    }
    let versions = [
        (Version::V20, "2.0"),
        (Version::V30, "3.0"),
        (Version::V31, "3.1"),
        (Version::V40, "4.0"),
    ];
    for (value, text) in versions {
        is_read_and_written(&value, text);
    }
    let nomenclatures = [
        (Nomenclature::B, "CVSS-B"),
        (Nomenclature::BE, "CVSS-BE"),
        (Nomenclature::BT, "CVSS-BT"),
        (Nomenclature::BTE, "CVSS-BTE"),
    ];
    for (value, text) in nomenclatures {
        is_read_and_written(&value, text);
    }
    for metric in metrics(Version::V31).iter().chain(metrics(Version::V40)) {
        is_read_and_written(&metric.group, metric.group.as_str());
    }
}

#[test]
fn a_vector_is_written_as_its_canonical_text() {
    let text = r#""CVSS:3.1/s:u/av:n/ac:l/pr:n/ui:n/c:h/i:h/a:h""#;
    let cvss: Cvss = serde_json::from_str(text).unwrap();
    is_read_and_written(&cvss, "CVSS:3.1/AV:N/AC:L/PR:N/UI:N/S:U/C:H/I:H/A:H");
}

#[test]
fn an_incomplete_vector_is_rejected_unless_a_field_allows_it() {
    let json = r#""CVSS:3.1/AV:N/C:H""#;
    let error = serde_json::from_str::<Cvss>(json).unwrap_err().to_string();
    let message =
        "missing mandatory CVSSv3 AC (Attack Complexity) metric: `CVSS:3.1/AV:N/C:H` is not";
    assert!(error.starts_with(message), "{error}");
    let draft: Option<Draft> = serde_json::from_str(json).unwrap();
    let Some(Draft(cvss)) = &draft else {
        panic!("there is no draft");
    };
    assert_eq!(
        (cvss.as_str(), cvss.is_complete()),
        ("CVSS:3.1/AV:N/C:H", false)
    );
    assert_eq!(serde_json::to_string(&draft).unwrap(), json);
    assert_eq!(serde_json::to_string(cvss).unwrap(), json);
    let none: Option<Draft> = serde_json::from_str("null").unwrap();
    assert_eq!(none, None);
    for json in [r#""CVSS:3.1/AV:Q""#, "9.8"] {
        assert!(serde_json::from_str::<Draft>(json).is_err(), "{json}");
    }
}

#[test]
fn an_error_says_what_is_expected() {
    let error = serde_json::from_str::<Cvss>(r#""CVSS:3.1/AV:Q""#).unwrap_err();
    let message = "invalid CVSSv3 AV (Attack Vector) metric: `Q`";
    assert!(error.to_string().starts_with(message), "{error}");
    let expected = "is not a CVSS vector of v2, v3.0, v3.1 or v4.0";
    assert!(error.to_string().contains(expected), "{error}");
    let error = serde_json::from_str::<Severity>(r#""hgh""#).unwrap_err();
    let expected = "`hgh` is not one of none, low, medium, high and critical";
    assert!(error.to_string().contains(expected), "{error}");
    let error = serde_json::from_str::<Version>("3.1").unwrap_err();
    let expected = "expected one of 2.0, 3.0, 3.1 and 4.0";
    assert!(error.to_string().contains(expected), "{error}");
}
