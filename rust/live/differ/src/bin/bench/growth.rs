//! Texts of the same make, each twice as long as the one before.
use crate::presets::{Job, READ, VALIDATE, both};
use crate::texts::growing;

const HEAD: &str = "\
| text | port | ns per byte | original | ns per byte | port / original |
|---|---|---|---|---|---|";
const NOTE: &str = "
One partition, two components and two applications for each KiB, and a comment up to the next; at 32 KiB
all lists are full. Times as in the tables of single presets.";

pub fn growth() {
    table("preset_read", &READ);
    table("preset_validate", &VALIDATE);
    println!("{NOTE}");
}

fn table<T>(called: &str, job: &Job<T>) {
    println!("\n`{called}`:\n\n{HEAD}");
    for kib in [1, 2, 4, 8, 16, 32] {
        let text = growing(kib);
        let times = both(job, called, &text);
        let (columns, ratio) = (times.columns_for_each(text.len()), times.ratio());
        println!("| {kib} KiB | {columns} | {ratio:.2} |");
    }
}
