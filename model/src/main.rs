//! `model < mesh > refined`: the program of document 01. Exit status 0 also when it refuses.

use std::io::{self, Read, Write};

fn main() -> io::Result<()> {
    let mut input = Vec::new();
    io::stdin().read_to_end(&mut input)?;
    io::stdout().write_all(&model::program(&input).output)
}
