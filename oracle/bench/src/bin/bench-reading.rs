//! The reading as a program, standard input to standard output. BENCH_WRONG names a way to err; with `--ways`
//! it prints the names instead.

use std::env;
use std::io::{self, Read, Write};

use bench::reading::Reading;
use bench::slips::Slip;

fn main() -> io::Result<()> {
    if env::args().nth(1).as_deref() == Some("--ways") {
        Slip::names().for_each(|name| println!("{name}"));
        return Ok(());
    }
    let slip = match env::var("BENCH_WRONG") {
        Err(_) => Slip::Nothing,
        Ok(name) => Slip::named(&name).unwrap_or_else(|| panic!("no way to err is called {name}")),
    };
    let mut input = Vec::new();
    if slip == Slip::OneRead {
        input.resize(1 << 20, 0);
        let read = io::stdin().read(&mut input)?;
        input.truncate(read);
    } else {
        io::stdin().read_to_end(&mut input)?;
    }
    io::stdout().write_all(&Reading { slip }.output(&input))
}
