//! Program `seams`: a Netpbm picture on standard input, its multi-size file
//! on standard output.

use std::io::{self, Read, Write};

fn main() -> io::Result<()> {
    let mut input = Vec::new();
    io::stdin().read_to_end(&mut input)?;
    io::stdout().write_all(&reference::seams_program(&input))
}
