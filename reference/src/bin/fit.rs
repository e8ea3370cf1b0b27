//! Program `fit`: a line with a width and a multi-size file on standard
//! input, the picture at that width on standard output.

use std::io::{self, Read, Write};

fn main() -> io::Result<()> {
    let mut input = Vec::new();
    io::stdin().read_to_end(&mut input)?;
    io::stdout().write_all(&reference::fit_program(&input))
}
