//! `multisize`: carves pictures and keeps all their widths in one file.

mod arguments;
mod colours;
mod command;
mod commands;
mod failure;
mod files;
mod formats;
mod help;
mod inputs;
mod marks;
mod outputs;
mod page;
mod pictures;
mod progress;
mod table;
mod words;

use std::env;
use std::io::{self, Write};
use std::process::ExitCode;

fn main() -> ExitCode {
    let words = env::args_os().skip(1).collect();
    let Err(failure) = arguments::parse(words).and_then(commands::run) else {
        return ExitCode::SUCCESS;
    };
    if !failure.is_closed_pipe() {
        // Where standard error can't be written, the status still tells.
        let _ = writeln!(io::stderr(), "multisize: {failure}");
    }
    ExitCode::from(failure.status())
}
