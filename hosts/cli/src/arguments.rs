//! The command that a command line gives.

mod files;
mod pictures;

use crate::command::Command;
use crate::failure::{any_of, Failure};
use crate::inputs::Input;
use crate::outputs::Output;
use crate::words::Words;
use multisize::Energy;
use std::ffi::OsString;

/// The command that the words give.
pub fn parse(mut words: Vec<OsString>) -> Result<Command, Failure> {
    if words.is_empty() {
        return Err(Failure::usage("no command is given"));
    }
    let name = words.remove(0).to_string_lossy().into_owned();
    let mut options = words.iter().take_while(|word| *word != "--");
    if options.any(|word| word == "--help" || word == "-h") {
        return Ok(Command::Help(Some(name).filter(|name| name != "help")));
    }
    match name.as_str() {
        "--help" | "-h" => Ok(Command::Help(None)),
        "help" => help(words),
        "--version" | "-V" => Ok(Command::Version),
        "carve" => pictures::carve(words),
        "build" => files::build(words),
        "check" => files::check(words),
        "info" => files::info(words),
        "show" => files::show(words),
        "seams" => files::seams(words),
        "table" => files::table(words),
        "page" => files::page(words),
        "remove" => pictures::remove(words),
        "retarget" => pictures::retarget(words),
        other => Err(Failure::Usage(format!("there is no command {other}"))),
    }
}

fn help(words: Vec<OsString>) -> Result<Command, Failure> {
    let ([], rest) = Words::of(words, &[], &[])?.plain_and_more([])?;
    if let Some(extra) = rest.get(1) {
        let text = format!("{} is too much", extra.to_string_lossy());
        return Err(Failure::Usage(text));
    }
    let name = rest.first().map(|name| name.to_string_lossy().into_owned());
    Ok(Command::Help(name))
}

/// Where a picture goes: nowhere where something is read.
fn picture_out(words: &mut Words, inputs: &[&Input]) -> Result<Output, Failure> {
    apart(out(words)?.of_picture()?, inputs)
}

fn out(words: &mut Words) -> Result<Output, Failure> {
    let place = words.option("-o");
    let place = place.ok_or_else(|| Failure::usage("-o with the file to write is missing"))?;
    Ok(Output(place))
}

/// The energy that `--energy` names, by default the library's own.
fn energy(words: &mut Words) -> Result<Energy, Failure> {
    let Some(word) = words.option("--energy") else {
        return Ok(Energy::default());
    };
    let word = word.to_string_lossy();
    let known: Vec<String> = Energy::ALL
        .iter()
        .map(|energy| energy.word().into())
        .collect();
    let text = || format!("--energy can be {}, not {word}", any_of(&known));
    Energy::named(&word).ok_or_else(|| Failure::Usage(text()))
}

fn apart(out: Output, inputs: &[&Input]) -> Result<Output, Failure> {
    inputs.iter().try_for_each(|input| out.apart_from(input))?;
    Ok(out)
}
