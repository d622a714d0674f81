//! hallrun on the reference store: lines from standard input, answers on standard output.

use std::io::{self, Read};

fn main() -> io::Result<()> {
    let mut input = Vec::new();
    io::stdin().take(4096).read_to_end(&mut input)?;
    print!("{}", reference::hallrun::run(&input));
    Ok(())
}
