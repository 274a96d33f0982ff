//! What the crate means, and `cvss_proved` does not: v3 vectors may lack base metrics, and the score of v2
//! and v3 is the base score.

// A score is the nearest number to a tenth.
#![allow(clippy::float_cmp)]

use cvss::{v3, Cvss, Severity};

#[test]
fn vectors_of_v3_may_lack_base_metrics() {
    for (text, score) in [
        ("CVSS:3.1/AV:N/AC:L/PR:N/UI:N/S:U/C:H", 7.5),
        ("CVSS:3.0/A:H/E:U", 3.6),
    ] {
        let vector: v3::Vector = text.parse().unwrap();
        assert_eq!(vector.score().value(), score, "{text}");
        let cvss: Cvss = text.parse().unwrap();
        assert_eq!((cvss.score(), cvss.to_string()), (score, text.to_owned()));
    }
}

#[test]
fn the_score_of_v2_and_v3_is_the_base_score() {
    for (text, score, severity) in [
        ("AV:N/AC:L/Au:N/C:N/I:N/A:C/E:U/TD:L", 7.8, Severity::High),
        (
            "CVSS:3.1/AV:N/AC:L/PR:N/UI:N/S:U/C:H/I:H/A:H/E:U/MAV:P",
            9.8,
            Severity::Critical,
        ),
        (
            "CVSS:4.0/AV:N/AC:L/AT:N/PR:N/UI:N/VC:H/VI:H/VA:H/SC:N/SI:N/SA:N/E:U",
            8.1,
            Severity::High,
        ),
    ] {
        let cvss: Cvss = text.parse().unwrap();
        assert_eq!((cvss.score(), cvss.severity()), (score, severity), "{text}");
    }
}
