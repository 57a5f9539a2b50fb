//! Reads a show file from standard input and prints what the unfolding program prints.

use std::io::{stdin, stdout, Read, Write};

use second::naive::print::printed;

fn main() -> std::io::Result<()> {
    let mut file = Vec::new();
    stdin().read_to_end(&mut file)?;
    stdout().write_all(printed(&file).as_bytes())
}
