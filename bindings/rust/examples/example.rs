use cvss_proved::{Cvss, ParseError};

fn main() -> Result<(), ParseError> {
    let cvss = Cvss::parse("CVSS:3.1/A:H/I:H/C:H/S:U/UI:N/PR:N/AC:L/AV:N")?;
    println!("{cvss} {} {}", cvss.score(), cvss.severity());
    if let Err(error) = Cvss::parse("CVSS:3.1/AV:Q") {
        println!("{error}");
    }
    Ok(())
}
