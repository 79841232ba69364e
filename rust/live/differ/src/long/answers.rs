//! What each side says of a text, in words.
use crate::records::original::{Told, read};
use crate::{document, listing, locks, plan, validate};
use port::document::Outcome;
use port::listing::out_min;
use port::plans;
use port::value::{STORE_MIN, TREE_MIN};
use port::{document as trees, records};
use preset::Preset;
use replay::model::answer::records::{Read, Refusal};

/// Of the port, of the original and of the definitions, one function after the other.
pub fn answers(text: &[u8], name: &[u8]) -> String {
    let lent = format!("lent name \"{}\"", name.escape_ascii());
    let (ours, mut theirs) = (ours(text, name), theirs(text, name));
    if locks::unlocked(text).is_some() {
        theirs += "\noriginal: left out, since it does not know locks";
    }
    let read = replay::model::plan::read(text, name, None);
    let defined = format!("definitions: {}", shown(&read));
    let made = read.map(|answer| answer.text.made);
    let listings = made.map_or(String::new(), |made| listings(text, name, made));
    [lent, ours, theirs, defined, listings].join("\n")
}

// Of a text that the definitions accept, with that count of values.
fn listings(text: &[u8], name: &[u8], made: usize) -> String {
    let written = |lines: &[u8]| String::from_utf8_lossy(lines).into_owned();
    let theirs = std::str::from_utf8(text).map(|text| listing::original::read(text, name, made));
    let theirs = theirs.map_or("not asked".into(), |told| {
        told.unwrap_or_else(|e| format!("{e:?}\n"))
    });
    let defined = replay::model::listing::read(text, name);
    let defined = defined.map_or_else(|e| format!("{e:?}"), |lines| written(&lines));
    let ours = written(&printed(text, name));
    format!("listing of the port:\n{ours}of the original:\n{theirs}by the definitions:\n{defined}")
}

fn printed(text: &[u8], name: &[u8]) -> Vec<u8> {
    let (mut store, mut tree) = (vec![0; STORE_MIN], vec![0; TREE_MIN]);
    let mut out = vec![0; out_min(name)];
    let got = port::listing::list(text, name, &mut store, &mut tree, &mut out);
    out.truncate(got.written as usize);
    out
}

fn ours(text: &[u8], name: &[u8]) -> String {
    let (mut store, mut tree) = (vec![0; STORE_MIN], vec![0; TREE_MIN]);
    let (store, tree) = (&mut store[..], &mut tree[..]);
    let all = [
        ("document_read", trees::read(text, store, tree)),
        ("preset_read", records::read(text, name, store, tree)),
        (
            "preset_validate",
            records::validate(text, name, store, tree),
        ),
        (
            "preset_plan",
            plans::plan(text, name, None.into(), store, tree),
        ),
    ];
    let all = all.map(|(function, got)| format!("port, {function}: {}", outcome(got)));
    all.join("\n")
}

fn outcome(got: Outcome) -> String {
    match got.number {
        0 => format!("accepted, {} values", got.made),
        number => format!("refused {number} {} {}", got.section, got.place),
    }
}

fn shown(read: &Read) -> String {
    match read {
        Ok(answer) => format!("accepted, {} values", answer.text.made),
        Err(Refusal {
            number,
            section,
            place,
        }) => format!("refused {number} {section} {place}"),
    }
}

// Sections and places where its messages name an entry.
fn theirs(text: &[u8], name: &[u8]) -> String {
    // it has no limits, and no text that is not UTF-8 can be handed to it
    let defined = replay::model::document::read(text);
    let limited = matches!(defined, Err((1 | 2 | 14..=16, _)));
    let Some(text) = std::str::from_utf8(text).ok().filter(|_| !limited) else {
        return "original: not asked, since it has no such limit".into();
    };
    let tree = document::original::read(text);
    let tree = tree.map_or_else(|number| format!("refused {number}"), |_| "accepted".into());
    let all = [
        ("parse", tree),
        ("Preset::parse", told(read(text, name))),
        ("validate", told(validate::original::read(text, name))),
        ("plan", told(plan::original::read(text, name))),
    ];
    let all = all.map(|(function, told)| format!("original, {function}: {told}"));
    all.join("\n")
}

fn told(read: Result<Preset, Told>) -> String {
    match read {
        Ok(_) => "accepted".into(),
        Err(Told { number, entry }) => match entry {
            None => format!("refused {number}"),
            Some((section, place)) => format!("refused {number} {section} {place}"),
        },
    }
}
