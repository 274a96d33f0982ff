use cvss_proved::{Cvss, ParseError};

fn main() -> Result<(), ParseError> {
    let text = "CVSS:4.0/AV:N/AC:L/AT:N/PR:N/UI:N/VC:L/VI:H/VA:N/SC:N/SI:N/SA:N/E:P";
    println!("{}", Cvss::parse(text)?.explain());
    Ok(())
}
