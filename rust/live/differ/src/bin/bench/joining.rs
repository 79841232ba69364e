//! One array over ever more lines.
use crate::parts::{document_times, text_times};
use crate::timing::Times;
use replay::generators::joining::features;

const HEAD: &str = "\
| lines | bytes | port | ns per line | original | ns per line | port / original |
|---|---|---|---|---|---|---|";
const NOTE: &str = "
An array of 100 features, each on a line of its own, all other lines blank, evenly spread. Joined lines:
`preset_text_lines` and a walk by `preset_text_next` against `logical_lines`; whole texts: `document_read`
against `parse`. Times as in the tables of single texts.";

pub fn joining() {
    table("Joined lines", text_times);
    table("Whole texts", document_times);
    println!("{NOTE}");
}

fn table(what: &str, times: fn(&str, &str) -> (usize, Times)) {
    println!("\n{what}:\n\n{HEAD}");
    for lines in [200, 2_000, 10_000] {
        let text = features(lines);
        let (_, times) = times(what, &text);
        let (bytes, columns, ratio) = (text.len(), times.columns_for_each(lines), times.ratio());
        println!("| {lines} | {bytes} | {columns} | {ratio:.4} |");
    }
}
