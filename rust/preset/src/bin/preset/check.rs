//! `preset check`: what each preset is, or why it is refused, and slips that the rules accept.
use crate::answer::{ACCEPTED, Answer, REFUSED};
use crate::arguments::Manner;
use crate::called::called;
use crate::input::{self, Input};
use preset::notes::Notes;
use preset::{Fault, Preset, Refusal};
use std::ffi::OsString;

/// What came of all files.
#[derive(Default)]
struct Sum {
    ok: usize,
    /// Numbers of refusals.
    refused: Vec<u32>,
    unread: usize,
    notes: usize,
}

pub fn check(files: &[OsString], manner: Manner) -> Answer {
    let (mut all, mut sum) = (Answer::default(), Sum::default());
    for file in files {
        match input::read(file) {
            Ok(input) => all.then(checked(&input, manner, &mut sum)),
            Err(why) => {
                sum.unread += 1;
                all.then(Answer::failed(why));
            }
        }
    }
    let last = sum.said(files.len());
    all.err += &advice(sum.refused);
    if files.len() > 1 && !manner.quiet {
        all.err += &last;
    }
    all
}

fn checked(input: &Input, manner: Manner, sum: &mut Sum) -> Answer {
    let judged = Preset::check(&input.text, input.board.as_bytes());
    let noted = match manner {
        Manner {
            quiet: true,
            deny: false,
        } => Notes::default(),
        _ => Notes::of(&input.text, input.board.as_bytes()),
    };
    let denied = manner.deny && noted.count() > 0;
    sum.notes += noted.count();
    let (line, status) = match judged {
        Ok(_) if manner.quiet => (String::new(), ACCEPTED),
        Ok(preset) => (
            format!("{}: ok: {}\n", input.file, counted(&preset)),
            ACCEPTED,
        ),
        Err(fault) => {
            sum.refused.push(fault.refusal.number);
            (told(input, &fault), REFUSED)
        }
    };
    sum.ok += usize::from(status == ACCEPTED);
    Answer {
        out: line.into(),
        err: said(input, &noted),
        status: if denied { REFUSED } else { status },
        ..Answer::default()
    }
}

// Notes change neither the result nor, unless they are denied, the status.
fn said(input: &Input, notes: &Notes) -> String {
    let told = notes.told.iter();
    let told = told.map(|note| format!("{}: note: {note}\n", place(input, note.line)));
    let more = notes.more.iter();
    let more = more.map(|more| format!("{}: note: {more}\n", input.file));
    told.chain(more).collect()
}

impl Sum {
    // The last line: only what is there.
    fn said(&self, files: usize) -> String {
        let parts = [
            (self.ok, "ok"),
            (self.refused.len(), "refused"),
            (self.unread, "not read"),
        ];
        let parts = parts.into_iter().filter(|(count, _)| *count > 0);
        let parts: Vec<String> = parts
            .map(|(count, what)| format!("{count} {what}"))
            .collect();
        let notes = match self.notes {
            0 => String::new(),
            count => format!("; {}", many(count, "note")),
        };
        format!("{}: {}{notes}\n", many(files, "file"), parts.join(", "))
    }
}

// The file, and the line where there is one.
fn place(input: &Input, line: Option<usize>) -> String {
    let line = line.map_or(String::new(), |line| format!(":{line}"));
    format!("{}{line}", input.file)
}

fn counted(preset: &Preset) -> String {
    let (chip, media) = (preset.board.chip.name(), preset.image.media.name());
    let partitions = many(preset.partitions.len(), "partition");
    let components = many(preset.components.len(), "component");
    let apps = many(preset.apps.len(), "application");
    format!("{chip}, {media}, {partitions}, {components}, {apps}")
}

fn many(count: usize, word: &str) -> String {
    match count {
        1 => format!("1 {word}"),
        _ => format!("{count} {word}s"),
    }
}

/// A fault in the form that editors jump to, and below it the line's text.
pub fn told(input: &Input, fault: &Fault) -> String {
    let place = place(input, fault.line);
    let text = fault.text.as_ref().filter(|text| !text.is_empty());
    let text = text.map_or(String::new(), |text| format!("    {text}\n"));
    format!("{place}: {fault}\n{text}")
}

/// How to go on from a refusal.
pub fn advice(mut numbers: Vec<u32>) -> String {
    numbers.sort();
    numbers.dedup();
    let called = called();
    let each: Vec<_> = numbers
        .iter()
        .map(|n| format!("{called} explain {n}"))
        .collect();
    if each.is_empty() {
        String::new()
    } else {
        format!("what it means and how it is mended: {}\n", each.join(", "))
    }
}

/// A refusal where the result is something else: nothing of it goes to standard output.
pub fn refused(input: &Input, refusal: Refusal, app: Option<&str>) -> Answer {
    let fault = Fault::find(&input.text, refusal, app);
    Answer {
        err: told(input, &fault) + &advice(vec![refusal.number]),
        status: REFUSED,
        ..Answer::default()
    }
}
