//! What the tests of the crate `cvss` 3.0.0 ask of its public items, and what they expect.

// A score is the nearest number to a tenth.
#![allow(clippy::float_cmp)]

use cvss::v4::Nomenclature;
use cvss::{v2, v3, v4, Cvss, Error, Severity};

/// Texts of v3 that are printed as they were read, with their base scores.
const V3_SCORES: [(&str, f64); 28] = [
    ("CVSS:3.1/AV:N/AC:L/PR:N/UI:R/S:C/C:L/I:L/A:N", 6.1),
    ("CVSS:3.0/AV:N/AC:L/PR:N/UI:R/S:C/C:L/I:L/A:N", 6.1),
    ("CVSS:3.1/AV:N/AC:L/PR:L/UI:N/S:C/C:L/I:L/A:N", 6.4),
    ("CVSS:3.1/AV:N/AC:H/PR:N/UI:R/S:U/C:L/I:N/A:N", 3.1),
    ("CVSS:3.1/AV:N/AC:L/PR:L/UI:N/S:C/C:H/I:H/A:H", 9.9),
    ("CVSS:3.1/AV:L/AC:L/PR:H/UI:N/S:U/C:L/I:L/A:L", 4.2),
    ("CVSS:3.1/AV:N/AC:L/PR:L/UI:N/S:U/C:H/I:H/A:H", 8.8),
    ("CVSS:3.1/AV:L/AC:L/PR:N/UI:R/S:U/C:H/I:H/A:H", 7.8),
    ("CVSS:3.1/AV:N/AC:L/PR:N/UI:N/S:U/C:H/I:N/A:N", 7.5),
    ("CVSS:3.1/AV:N/AC:L/PR:N/UI:N/S:U/C:H/I:H/A:H", 9.8),
    ("CVSS:3.1/AV:N/AC:H/PR:N/UI:N/S:C/C:N/I:H/A:N", 6.8),
    ("CVSS:3.1/AV:P/AC:L/PR:N/UI:N/S:U/C:H/I:H/A:H", 6.8),
    ("CVSS:3.1/AV:N/AC:L/PR:N/UI:N/S:C/C:L/I:N/A:N", 5.8),
    ("CVSS:3.1/AV:N/AC:L/PR:N/UI:N/S:C/C:N/I:L/A:N", 5.8),
    ("CVSS:3.1/AV:A/AC:L/PR:N/UI:N/S:C/C:H/I:N/A:H", 9.3),
    ("CVSS:3.1/AV:N/AC:L/PR:L/UI:R/S:C/C:L/I:L/A:N", 5.4),
    ("CVSS:3.1/AV:A/AC:L/PR:N/UI:N/S:U/C:H/I:H/A:H", 8.8),
    ("CVSS:3.1/AV:P/AC:L/PR:N/UI:N/S:U/C:N/I:H/A:N", 4.6),
    ("CVSS:3.1/AV:N/AC:L/PR:N/UI:R/S:U/C:H/I:H/A:H", 8.8),
    ("CVSS:3.1/AV:N/AC:H/PR:N/UI:N/S:U/C:H/I:H/A:N", 7.4),
    ("CVSS:3.1/AV:N/AC:L/PR:N/UI:R/S:C/C:H/I:H/A:H", 9.6),
    ("CVSS:3.1/AV:N/AC:L/PR:N/UI:N/S:C/C:N/I:N/A:N", 0.0),
    ("CVSS:3.1/AV:N/AC:L/PR:N/UI:N/S:U/C:N/I:N/A:N", 0.0),
    ("CVSS:3.0/AV:N/AC:L/PR:N/UI:N/S:U/C:N/I:N/A:N", 0.0),
    ("CVSS:3.1/AV:P/AC:H/PR:H/UI:R/S:U/C:N/I:N/A:L", 1.6),
    ("CVSS:3.1/AV:P/AC:H/PR:H/UI:R/S:C/C:N/I:N/A:L", 1.8),
    ("CVSS:3.1/AV:A/AC:H/PR:L/UI:N/S:U/C:L/I:L/A:N/E:P/RL:T/RC:R/CR:X/IR:X/AR:H/MAV:X/MAC:H/MPR:X/MUI:R/MS:C/MC:L/MI:X/MA:N", 3.7),
    ("CVSS:3.0/AV:N/AC:L/PR:N/UI:R/S:C/C:H/I:H/A:H", 9.6),
];

#[test]
fn vectors_of_v3_have_their_scores() {
    for (text, score) in V3_SCORES {
        let vector: v3::Vector = text.parse().unwrap();
        assert_eq!(vector.to_string(), text);
        assert_eq!(
            (vector.score().value(), vector.base_score().value()),
            (score, score),
            "{text}"
        );
    }
    let other = [(26, 3.3, 3.5), (20, 9.6, 9.7), (27, 9.6, 9.6)];
    for (place, temporal, environmental) in other {
        let vector: v3::Vector = V3_SCORES[place].0.parse().unwrap();
        assert_eq!(vector.temporal_score().value(), temporal);
        assert_eq!(vector.environmental_score().value(), environmental);
    }
    for text in [
        "AV:N/AC:L/PR:N/UI:R/S:C/C:L/I:L/A:N",
        "CVSS:3.1/AV:N/AC:L/PR:N/UI:R/S:C/C:L/I:L/A:N/AV:L",
    ] {
        assert!(text.parse::<v3::Vector>().is_err(), "{text}");
    }
}

/// Texts of v2 with the base, temporal and environmental score, and the rounded sub-scores.
const V2_SCORES: [(&str, [f64; 3], [f64; 3]); 3] = [
    (
        "AV:N/AC:L/Au:N/C:N/I:N/A:C/E:F/RL:OF/RC:C/CDP:H/TD:H/CR:M/IR:M/AR:H",
        [7.8, 6.4, 9.2],
        [6.9, 10.0, 10.0],
    ),
    (
        "AV:N/AC:L/Au:N/C:C/I:C/A:C/E:F/RL:OF/RC:C/CDP:H/TD:H/CR:M/IR:M/AR:L",
        [10.0, 8.3, 9.0],
        [10.0, 10.0, 9.6],
    ),
    (
        "AV:L/AC:H/Au:N/C:C/I:C/A:C/E:POC/RL:OF/RC:C/CDP:H/TD:H/CR:M/IR:M/AR:M",
        [6.2, 4.9, 7.5],
        [10.0, 1.9, 10.0],
    ),
];

#[test]
fn vectors_of_v2_have_their_scores() {
    for (text, scores, sub_scores) in V2_SCORES {
        let vector: v2::Vector = text.parse().unwrap();
        let own = [
            vector.score(),
            vector.temporal_score(),
            vector.environmental_score(),
        ];
        assert_eq!(own.map(v2::Score::value), scores, "{text}");
        let own = [
            vector.impact(),
            vector.exploitability(),
            vector.adjusted_impact(),
        ];
        assert_eq!(
            own.map(|score| score.roundup().value()),
            sub_scores,
            "{text}"
        );
    }
    let temporal: v2::Vector = "AV:N/AC:L/Au:S/C:C/I:C/A:C/E:F/RL:U/RC:C".parse().unwrap();
    assert_eq!(
        (temporal.score().value(), temporal.temporal_score().value()),
        (9.0, 8.6)
    );
    let environmental = [
        (
            "AV:L/AC:H/Au:M/C:N/I:N/A:P/E:H/RL:ND/TD:H/CR:L/IR:H/AR:L",
            0.0,
        ),
        (
            "AV:L/AC:H/Au:M/C:N/I:P/A:N/E:F/RL:TF/RC:UR/CDP:MH/TD:ND/CR:H/IR:L/AR:L",
            3.9,
        ),
        (
            "AV:N/AC:M/Au:N/C:C/I:C/A:P/RL:TF/RC:UC/CDP:MH/TD:M/IR:L/AR:H",
            6.2,
        ),
    ];
    for (text, score) in environmental {
        let vector: v2::Vector = text.parse().unwrap();
        assert_eq!(vector.environmental_score().value(), score, "{text}");
    }
}

#[test]
fn vectors_of_v4_are_printed_and_scored() {
    let full = "CVSS:4.0/AV:N/AC:L/AT:N/PR:H/UI:N/VC:L/VI:L/VA:N/SC:N/SI:N/SA:N/E:U/CR:L/IR:X/AR:L/MAV:A/MAC:H/MAT:N/MPR:N/MUI:P/MVC:X/MVI:N/MVA:H/MSC:N/MSI:L/MSA:S/S:N/AU:N/R:I/V:C/RE:H/U:Green";
    assert_eq!(full.parse::<v4::Vector>().unwrap().to_string(), full);
    let spelled = "CVSS:4.0/AV:N/AC:L/AT:N/PR:N/UI:N/VC:N/VI:H/VA:N/SC:N/SI:N/SA:N/E:P/CR:X/IR:X/AR:X/MAV:X/MAC:X/MAT:X/MPR:X/MUI:X/MVC:X/MVI:X/MVA:X/MSC:X/MSI:X/MSA:X/S:X/AU:X/R:X/V:X/RE:X/U:X";
    let vector: v4::Vector = spelled.parse().unwrap();
    assert_eq!(
        (vector.to_string().as_str(), vector.score().value()),
        (spelled, 7.7)
    );
    assert_eq!(vector.nomenclature(), Nomenclature::CvssBTE);
    let score = v4::Score::new(4.5, Nomenclature::CvssB);
    assert_eq!(score.to_string(), "4.5 (CVSS-B)");
    assert_eq!(
        (f64::from(score.clone()), Severity::from(score)),
        (4.5, Severity::Medium)
    );
}

#[test]
fn texts_are_rejected_with_their_errors() {
    let text = |text: &str| text.to_owned();
    let base = "AV:N/AC:L/AT:N/PR:H/UI:N/VC:L/VI:L/VA:N/SC:N/SI:N/SA:N";
    let rows = [
        (
            format!("CVSS:5.0/{base}"),
            Error::UnsupportedVersion {
                version: text("5.0"),
            },
        ),
        (
            format!("CSS:4.0/{base}"),
            Error::InvalidPrefix {
                prefix: text("CSS"),
            },
        ),
        (
            format!("garbage/{base}"),
            Error::InvalidComponent {
                component: text("garbage"),
            },
        ),
    ];
    for (own, error) in rows {
        assert_eq!(own.parse::<v4::Vector>(), Err(error.clone()), "{own}");
        assert_eq!(own.parse::<Cvss>(), Err(error), "{own}");
    }
    let bad = format!("CVSS:4.0/{}", base.replace("AV:N", "AV:F"));
    let (metric_type, value) = (v4::MetricType::AV, text("F"));
    assert_eq!(
        bad.parse::<v4::Vector>(),
        Err(Error::InvalidMetricV4 { metric_type, value })
    );
    let missing = format!("CVSS:4.0/{}", base.replace("/AC:L", ""));
    let metric_type = v4::MetricType::AC;
    assert_eq!(
        missing.parse::<v4::Vector>(),
        Err(Error::MissingMandatoryMetricV4 { metric_type })
    );
}

#[test]
fn numbers_are_rounded_and_rated() {
    let v2_rows = [
        (9.0 * 0.95, 8.6),
        (8.549_995, 8.5),
        (-0.06, -0.1),
        (0.0, 0.0),
    ];
    for (number, rounded) in v2_rows {
        assert_eq!(
            v2::Score::new(number).roundup().value(),
            rounded,
            "{number}"
        );
    }
    // The last two differ from the crate: Appendix A takes the nearest fifth decimal.
    let v3_rows = [
        (4.0, 4.0),
        (4.01, 4.1),
        (-1.0, 0.0),
        (4.000_004, 4.0),
        (4.000_006, 4.1),
    ];
    for (number, rounded) in v3_rows {
        assert_eq!(
            v3::Score::new(number).roundup().value(),
            rounded,
            "{number}"
        );
    }
    assert_eq!(
        v3::Score::new(4.000_004).roundup_for_version(0).value(),
        4.1
    );
    for number in [1e6, f64::INFINITY] {
        assert_eq!(v2::Score::from(number).roundup().value(), number);
    }
    assert!(v3::Score::new(f64::NAN).roundup().value().is_nan());
    let ratings = [
        (0.0, "none"),
        (0.1, "low"),
        (4.0, "medium"),
        (7.0, "high"),
        (9.0, "critical"),
    ];
    for (score, rating) in ratings {
        assert_eq!(v3::Score::new(score).severity().as_str(), rating);
        assert_eq!(
            v4::Score::new(score, Nomenclature::CvssB)
                .severity()
                .to_string(),
            rating
        );
    }
    for (score, rating) in [(0.0, "LOW"), (3.9, "Low"), (4.0, "medium"), (7.0, "high")] {
        assert_eq!(rating.parse(), Ok(v2::Score::new(score).severity()));
    }
    assert_eq!(
        "worst".parse::<Severity>().unwrap_err().to_string(),
        "invalid CVSS Qualitative Severity Rating: `worst`"
    );
    assert_eq!("CVSS-BT".parse(), Ok(Nomenclature::CvssBT));
    assert_eq!(
        "cvss-bt".parse::<Nomenclature>().unwrap_err().to_string(),
        "invalid CVSSv4 nomenclature: `cvss-bt`"
    );
}

#[test]
fn metrics_are_listed_in_the_order_of_the_crate() {
    let v2 = "AV:N/AC:L/Au:M/C:N/I:P/A:C/E:U/RL:OF/RC:UC/CDP:LM/TD:H/CR:L/IR:M/AR:ND";
    let v3 = V3_SCORES[26].0;
    let v4 = "CVSS:4.0/AV:N/AC:L/AT:N/PR:H/UI:N/VC:L/VI:L/VA:N/SC:N/SI:N/SA:N/E:U/CR:L/IR:X/AR:L/MAV:A/MAC:H/MAT:N/MPR:N/MUI:P/MVC:X/MVI:N/MVA:H/MSC:N/MSI:L/MSA:S/S:N/AU:N/R:I/V:C/RE:H/U:Green";
    let rows = [
        (v2, "AC Au AV C I A CR IR AR CDP TD E RC RL", "Low"),
        (v3, "AV AC PR UI S C I A E RL RC MAV MAC MPR MUI MS MC MI CR IR AR MA", "Adjacent"),
        (v4, "AC AT AV PR SA SC SI UI VA VC VI E AR CR IR MAC MAT MAV MPR MSA MSC MSI MUI MVA MVC MVI AU R RE S U V", "Low"),
    ];
    for (text, names, first) in rows {
        let cvss: Cvss = text.parse().unwrap();
        let listed: Vec<&str> = cvss.metrics().map(|(kind, _)| kind.name()).collect();
        assert_eq!(listed.join(" "), names);
        let (kind, value) = cvss.metrics().next().unwrap();
        assert_eq!(format!("{value:?}"), first, "{}", kind.description());
        assert_eq!(cvss.to_string(), text);
    }
}

#[test]
fn vectors_need_not_be_complete() {
    assert_eq!(v2::Vector::default().to_string(), "");
    assert_eq!(v2::Vector::default().score().value(), 0.0);
    let alone: v3::Vector = "CVSS:3.0".parse().unwrap();
    assert_eq!(
        (alone.to_string().as_str(), alone.score().value()),
        ("CVSS:3.0", 0.0)
    );
    let earlier = v3::Vector {
        minor_version: 0,
        ..V3_SCORES[20].0.parse().unwrap()
    };
    assert_eq!(earlier.environmental_score().value(), 9.6);
    let later = v3::Vector {
        minor_version: 7,
        ..V3_SCORES[20].0.parse().unwrap()
    };
    assert_eq!(later.environmental_score().value(), 9.7);
    assert!(later.to_string().starts_with("CVSS:3.7/AV:N"));
    assert_eq!(v4::Vector::default().to_string(), "CVSS:4.0");
    assert_eq!(v4::Vector::default().nomenclature(), Nomenclature::CvssB);
}

#[test]
#[should_panic(expected = "no score")]
fn an_incomplete_vector_of_v4_has_no_score() {
    let _ = v4::Vector::default().score();
}

#[test]
#[should_panic(expected = "no weight")]
fn a_scope_has_no_weight() {
    let _ = v3::Metric::score(v3::metric::base::Scope::Changed);
}
