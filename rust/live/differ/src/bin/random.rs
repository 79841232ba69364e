//! Compares random texts of one sort: `random [SORT] [COUNT [SEED]]`, where SORT is text, value, document,
//! records, validate, plan or listing, `text` where none is named; `random SORT --only SEED NUMBER` one of them.
//! Ends with 1 and the shortest text on a difference.
use differ::run::command::command;
use differ::run::sides::Plain;
use differ::run::{Make, Run};
use differ::{compare, document, listing, plan, records, validate, value};
use std::process::ExitCode;

const SORTS: [(&str, Make); 7] = [
    ("text", || {
        Box::new(Plain {
            make: replay::generators::random::text,
            compare: compare::compare,
        })
    }),
    ("value", || {
        Box::new(Plain {
            make: replay::generators::value::text,
            compare: value::compare::all,
        })
    }),
    ("document", || Box::new(document::compare::Judge::default())),
    ("records", || Box::new(records::compare::Judge::records())),
    ("validate", || Box::new(validate::compare::judge())),
    ("plan", || Box::new(plan::compare::judge())),
    ("listing", || Box::new(listing::compare::Judge::default())),
];

fn main() -> ExitCode {
    let words: Vec<_> = std::env::args().skip(1).collect();
    let named = words
        .first()
        .and_then(|word| SORTS.iter().find(|sort| sort.0 == word));
    let ((_, sides), left) = match named {
        Some(sort) => (*sort, &words[1..]),
        None => (SORTS[0], &words[..]),
    };
    let run = Run {
        sides,
        count: 1_000_000,
        seed: 1,
    };
    command(run, left, |_, _| Ok(()))
}
