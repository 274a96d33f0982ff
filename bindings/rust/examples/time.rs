//! Prints the nanoseconds that a call takes, over the lines of standard input that are accepted.

use cvss_proved::{score_line, score_lines, Cvss};
use std::hint::black_box;
use std::io::{self, Read};
use std::time::Instant;

const ROUNDS: u32 = 200;

fn print_time<T>(name: &str, items: &[T], call: impl Fn(&T)) {
    print_round_time(name, items.len(), || items.iter().for_each(&call));
}

/// Of the rounds the fastest, which other programs on the machine have disturbed least.
fn print_round_time(name: &str, count: usize, call: impl Fn()) {
    let round = || {
        let start = Instant::now();
        call();
        start.elapsed()
    };
    let least = (0..ROUNDS).map(|_| round()).min().unwrap_or_default();
    let taken = least.as_nanos() / count.max(1) as u128;
    println!("Rust: {name} {taken} ns ({count} lines)");
}

fn main() -> io::Result<()> {
    let mut text = String::new();
    io::stdin().read_to_string(&mut text)?;
    let lines: Vec<&str> = text
        .lines()
        .filter(|line| Cvss::parse(line).is_ok())
        .collect();
    print_time("Cvss::parse", &lines, |line| {
        let _ = black_box(Cvss::parse(line));
    });
    let vectors: Vec<Cvss> = lines
        .iter()
        .filter_map(|line| Cvss::parse(line).ok())
        .collect();
    print_time("metrics", &vectors, |vector| {
        black_box(vector.metrics());
    });
    print_time("without_not_defined", &vectors, |vector| {
        black_box(vector.without_not_defined());
    });
    print_time("with_metrics", &vectors, |vector| {
        let _ = black_box(vector.with_metrics(&[("CR", "H"), ("AR", "L")]));
    });
    print_time("record", &vectors, |vector| {
        black_box(vector.record());
    });
    print_time("explain", &vectors, |vector| {
        black_box(vector.explain());
    });
    print_time("score_line", &lines, |line| {
        black_box(score_line(line.as_bytes()));
    });
    let all = lines.join("\n") + "\n";
    print_round_time("score_lines", lines.len(), || {
        black_box(score_lines(all.as_bytes()));
    });
    print_time(
        "Cvss::parse of a rejected text",
        &["CVSS:3.1/AV:N"; 100],
        |text| {
            let _ = black_box(Cvss::parse(text));
        },
    );
    Ok(())
}
