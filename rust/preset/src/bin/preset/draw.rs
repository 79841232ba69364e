//! `preset map`: the flash on the terminal, or as a file.
use crate::answer::Answer;
use crate::check::refused;
use crate::input::{self, Input};
use preset::map::Drawing;
use preset::{Fault, Preset, Refusal, Selection, picture, shown};
use std::ffi::{OsStr, OsString};
use std::fs::Metadata;
use std::io::ErrorKind;
use std::os::unix::fs::MetadataExt;

pub fn map(file: &OsStr, app: Option<String>, out: Option<OsString>) -> Answer {
    if let Some(out) = out.as_ref().filter(|out| same(file, out)) {
        let out = shown::file(out);
        return Answer::failed(format!(
            "{out}: is the preset itself, and is not overwritten"
        ));
    }
    let input = match input::read(file) {
        Ok(input) => input,
        Err(why) => return Answer::failed(why),
    };
    match judged(&input, app.as_deref()) {
        Ok(preset) => drawn(&picture::accepted(&preset, app.as_deref()), out),
        Err(refusal) => {
            let mut answer = refused(&input, refusal, app.as_deref());
            let fault = Fault::find(&input.text, refusal, app.as_deref());
            let board = input.board.as_bytes();
            if let Some(drawing) = picture::refused(&input.text, board, &fault, app.as_deref()) {
                answer.and(drawn(&drawing, out));
            }
            answer
        }
    }
}

// Whether both name one file that is there, by whatever path or link: the file's own number tells.
fn same(file: &OsStr, out: &OsStr) -> bool {
    let own = |path: &OsStr| {
        let found = std::fs::metadata(path).ok().filter(Metadata::is_file)?;
        Some((found.dev(), found.ino()))
    };
    let from = if file == "-" {
        own("/dev/stdin".as_ref())
    } else {
        own(file)
    };
    out != "-" && from.is_some() && from == own(out)
}

// A chosen application is planned, so that 80 and 81 are told too.
fn judged(input: &Input, app: Option<&str>) -> Result<Preset, Refusal> {
    let board = input.board.as_bytes();
    if let Some(key) = app {
        Preset::plan(&input.text, board, &Selection::App(key.into()))?;
    }
    Preset::validate(&input.text, board)
}

fn drawn(drawing: &Drawing, out: Option<OsString>) -> Answer {
    let Some(file) = out else {
        return Answer::result(drawing.terminal());
    };
    if file == "-" {
        return Answer::result(drawing.svg());
    }
    match std::fs::write(&file, drawing.svg()) {
        Ok(()) => Answer::default(),
        Err(why) => {
            let why = match why.kind() {
                // the file itself would be made
                ErrorKind::NotFound => "there is no such directory".into(),
                _ => input::said(&why),
            };
            let file = shown::file(&file);
            Answer::failed(format!("{file}: cannot be written: {why}"))
        }
    }
}
