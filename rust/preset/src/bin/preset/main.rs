//! The command `preset`: says of presets what is wrong, where, and how it is mended; plans, lists and draws them.
#![forbid(unsafe_code)]

mod answer;
mod arguments;
mod called;
mod check;
mod draw;
mod explain;
mod input;
mod plan;

use answer::Answer;
use arguments::Command;
use std::process::ExitCode;

const HELP: &str = include_str!("help.txt");

fn main() -> ExitCode {
    let answer = match arguments::parse(std::env::args_os().skip(1)) {
        Ok(command) => run(command),
        Err(wrong) => {
            let called = called::called();
            Answer::failed(format!("{wrong}\n{called} --help says how it is called"))
        }
    };
    answer.given()
}

fn run(command: Command) -> Answer {
    match command {
        Command::Help => Answer::result(HELP),
        Command::Version => Answer::result(concat!("preset ", env!("CARGO_PKG_VERSION"), "\n")),
        Command::Check { files, manner } => check::check(&files, manner),
        Command::Plan { file, app } => plan::plan(&file, app),
        Command::Listing { file } => plan::listing(&file),
        Command::Map { file, app, svg } => draw::map(&file, app, svg),
        Command::Explain { number } => explain::explain(&number),
    }
}
