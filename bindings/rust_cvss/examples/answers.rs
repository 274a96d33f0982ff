//! Answers the lines that `drawn.py` draws: of each text what every parser of the crate gives, with
//! scores and sub-scores, also of the vector without some of its base metrics.

use cvss::{v2, v3, v4, Cvss, Error};
use std::io::{self, BufRead, Write};

fn v2_answer(vector: &v2::Vector) -> String {
    let (impact, exploitability) = (vector.impact(), vector.exploitability());
    let adjusted = vector.adjusted_impact();
    let scores = [
        vector.score(),
        vector.temporal_score(),
        vector.environmental_score(),
        vector.temporal_score_internal(v2::Score::new(2.5)),
        impact.roundup(),
        exploitability.roundup(),
        adjusted.roundup(),
    ];
    let scores = scores
        .map(|score| format!("{:.1}", score.value()))
        .join(" ");
    let sub_scores = [impact, exploitability, adjusted].map(|own| format!("{:?}", own.value()));
    format!("{vector} {scores} {}", sub_scores.join(" "))
}

fn v3_answer(vector: &v3::Vector) -> String {
    let scores = [
        vector.base_score(),
        vector.temporal_score(),
        vector.environmental_score(),
    ];
    assert_eq!(vector.score(), vector.base_score());
    let scores = scores
        .map(|score| format!("{:.1}", score.value()))
        .join(" ");
    let (impact, exploitability) = (vector.impact().value(), vector.exploitability().value());
    let severity = vector.severity();
    format!("{vector} {scores} {severity} {impact:?} {exploitability:?}")
}

/// Takes the fields out whose bits are set.
macro_rules! without {
    ($vector:ident, $mask:ident: $($field:ident)+) => {{
        let mut vector = $vector.clone();
        let mut bits = $mask;
        $(
            if bits & 1 == 1 {
                vector.$field = None;
            }
            bits >>= 1;
        )+
        assert!(bits <= 3, "a mask has eight bits");
        vector
    }};
}

fn of_v2(text: &str, mask: u32) -> Result<String, Error> {
    let vector: v2::Vector = text.parse()?;
    let rest = without!(vector, mask: av ac au c i a);
    Ok(format!("{} {}", v2_answer(&vector), v2_answer(&rest)))
}

fn of_v3(text: &str, mask: u32) -> Result<String, Error> {
    let vector: v3::Vector = text.parse()?;
    let rest = without!(vector, mask: av ac pr ui s c i a);
    Ok(format!("{} {}", v3_answer(&vector), v3_answer(&rest)))
}

fn of_v4(text: &str) -> Result<String, Error> {
    let vector: v4::Vector = text.parse()?;
    let (score, severity) = (vector.score().value(), vector.score().severity());
    Ok(format!(
        "{vector} {score:.1} {severity} {}",
        vector.nomenclature()
    ))
}

fn of_any(text: &str) -> Result<String, Error> {
    let cvss: Cvss = text.parse()?;
    Ok(format!("{cvss} {:.1} {}", cvss.score(), cvss.severity()))
}

fn main() -> io::Result<()> {
    let mut output = io::BufWriter::new(io::stdout().lock());
    for line in io::stdin().lock().lines() {
        let line = line?;
        let (text, mask) = line.split_once('\t').expect("a line has a tab");
        let mask = mask.parse().expect("a mask is a number");
        let answers = [
            of_any(text),
            of_v2(text, mask),
            of_v3(text, mask),
            of_v4(text),
        ];
        let answers = answers.map(|own| own.unwrap_or_else(|error| format!("error: {error}")));
        writeln!(output, "{}", answers.join("\t"))?;
    }
    Ok(())
}
