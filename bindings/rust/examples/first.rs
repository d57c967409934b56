//! Prints the listing of a certificate, and when it ends: `cargo run --example first FILE`

use wurstdrape::Kind;

fn main() -> Result<(), Box<dyn std::error::Error>> {
    let der = std::fs::read(std::env::args().nth(1).ok_or("usage: first FILE")?)?;
    print!("{}", wurstdrape::show(&der, Kind::Certificate)?);
    let end = wurstdrape::validity(&der)?.not_after;
    println!("valid until {end} (seconds since 1970)");
    Ok(())
}
