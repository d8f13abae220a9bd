//! Prints all that a certificate has, a line for each thing.
use x509_rattle::Certificate;

fn main() -> Result<(), Box<dyn std::error::Error>> {
    let path = std::env::args_os().nth(1).ok_or("usage: text FILE")?;
    let certificate = Certificate::from_der(std::fs::read(path)?)?;
    print!("{}", certificate.to_text()?);
    Ok(())
}
