//! Reads an array over N physical lines once: `joining lines N` its joined lines alone, `joining document N` the whole
//! text. Run under valgrind (`rust/valgrind`), which counts the instructions that a line takes.
use port::document;
use port::text::SCRATCH_MIN;
use port::value::{STORE_MIN, TREE_MIN};
use replay::generators::joining::{FEATURES, features};
use replay::harness::ask::text::counted;

fn main() {
    let words: Vec<_> = std::env::args().skip(1).collect();
    let [what, lines] = &words[..] else {
        panic!("lines or document, and how many lines");
    };
    let text = features(lines.parse().expect("how many lines"));
    match what.as_str() {
        "lines" => {
            let joined = counted(text.as_bytes(), &mut [0; SCRATCH_MIN]);
            assert_eq!(joined, 1, "joined lines");
        }
        "document" => {
            let got = document::read(text.as_bytes(), &mut [0; STORE_MIN], &mut [0; TREE_MIN]);
            let made = (got.number, got.made as usize);
            assert_eq!(made, (0, FEATURES + 1), "the array and its items");
        }
        _ => panic!("lines or document, not {what}"),
    }
}
