//! What each command does.

use crate::command::Command;
use crate::failure::Failure;
use crate::outputs::print;
use crate::{files, help, pictures};

const VERSION: &str = concat!("multisize ", env!("CARGO_PKG_VERSION"), "\n");

/// Does what the command says.
pub fn run(command: Command) -> Result<(), Failure> {
    match command {
        Command::Help(name) => print(help::of(name.as_deref())?.as_bytes()),
        Command::Version => print(VERSION.as_bytes()),
        Command::Carve {
            picture,
            width,
            out,
            energy,
        } => pictures::carve(&picture, width, &out, energy),
        Command::Build {
            picture,
            out,
            depth,
            growth,
            energy,
        } => files::build(&picture, &out, depth, growth, energy),
        Command::Check { file } => files::check(&file).and_then(|_| print(b"accepted\n")),
        Command::Info { file, json } => files::info(&file, json),
        Command::Show { file, shown } => files::show(&file, &shown),
        Command::Seams { file, out, first } => files::seams(&file, &out, first),
        Command::Table { file, out, long } => files::table(&file, &out, long),
        Command::Page { file, out, title } => files::page(&file, &out, title),
        Command::Remove {
            picture,
            marks,
            out,
            budget,
            energy,
        } => pictures::remove(&picture, &marks, &out, budget, energy),
        Command::Retarget {
            picture,
            rows,
            columns,
            out,
            energy,
        } => pictures::retarget(&picture, rows, columns, &out, energy),
    }
}
