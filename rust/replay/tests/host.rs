//! What a host may rely on beside the answers, as docs/HOST.md has it: how deep the stack is used, that threads do not
//! meet, and the fixed words.
use port::records::{WORD_MIN, word};
use replay::generators::mixed;
use replay::generators::random::Rng;
use replay::generators::records::random::EXAMPLES;
use replay::harness::faults::{FUNCTIONS, Function, Input, Said, least};
use replay::harness::stack::{most, used, within};
use std::thread;

// Enough for all, and a quarter of it is left over.
const STACK: usize = 64 * 1_024;

fn paper() -> String {
    let path = concat!(env!("CARGO_MANIFEST_DIR"), "/../../docs/HOST.md");
    std::fs::read_to_string(path).expect("the document")
}

// The cells of each row of the table that begins so.
fn rows<'a>(paper: &'a str, head: &str) -> Vec<Vec<&'a str>> {
    let begun = paper.lines().skip_while(|line| !line.starts_with(head));
    let rows = begun.skip(2).take_while(|line| line.starts_with('|'));
    let cells = |row: &'a str| {
        let cells = row.split('|').map(str::trim).collect::<Vec<_>>();
        cells[1..cells.len() - 1].to_vec()
    };
    rows.map(cells).collect()
}

// What is called, and the bytes of stack that it takes at most.
fn bounds(paper: &str) -> Vec<(String, usize)> {
    let rows = rows(paper, "| called | at most |").into_iter();
    let bound = |row: Vec<&str>| {
        let kib: usize = row[1].strip_suffix(" KiB")?.parse().ok()?;
        Some((row[0].replace('`', ""), kib * 1_024))
    };
    rows.map(|row| bound(row).expect("a bound")).collect()
}

fn called(function: &Function, text: &[u8], key: &[u8]) -> (Said, [Vec<u8>; 3]) {
    let name = b"board";
    let mut rooms = least(name).map(|length| vec![0; length]);
    let input = Input { text, name, key };
    let said = (function.call)(input, rooms.each_mut().map(Vec::as_mut_slice));
    (said, rooms)
}

#[test]
fn stack_is_within_the_bounds_of_the_table() {
    let (bounds, most) = (bounds(&paper()), most());
    assert_eq!(bounds.len(), most.len());
    for (called, bytes, text) in most {
        println!("{called}: {bytes} bytes, {text}");
        let bound = bounds.iter().find(|(row, _)| row == called);
        let bound = bound.expect("a row of the table").1;
        assert!(bytes > 4_096, "{called}: {bytes} bytes, {text}");
        assert!(bytes <= bound, "{called}: {bytes} bytes, {text}");
        assert!(bound <= STACK / 4 * 3, "{called}: {bound} bytes");
    }
}

// What is measured is right for a call that is known to take much, or next to nothing.
#[test]
fn stack_that_is_known() {
    let filled = || {
        std::hint::black_box([7u8; 50_000]);
    };
    assert!((50_000..60_000).contains(&used(filled)), "{}", used(filled));
    assert!(used(|| ()) < 1_024, "{}", used(|| ()));
}

// A thread has some of its stack for itself.
#[test]
fn a_small_stack_is_enough() {
    for function in FUNCTIONS {
        for text in EXAMPLES {
            within(STACK + 16_384, || {
                drop(called(function, text.as_bytes(), b"desk"))
            });
        }
    }
}

// The same answers and rooms in many threads at once as in one.
#[test]
fn threads_do_not_meet() {
    let mut r = Rng::new(51);
    let texts: Vec<_> = (0..60).map(|_| mixed::text(&mut r)).collect();
    let all = || -> Vec<_> {
        let each = texts
            .iter()
            .flat_map(|t| FUNCTIONS.iter().map(move |f| (t, f)));
        each.map(|(text, function)| called(function, text, b"desk"))
            .collect()
    };
    let want = all();
    thread::scope(|scope| {
        let threads = [(); 4].map(|_| scope.spawn(all));
        for thread in threads {
            assert!(thread.join().expect("an answer") == want);
        }
    });
}

// Three numbers in each row, with a word after each.
fn words(paper: &str) -> Vec<(u32, &str)> {
    let cells = rows(paper, "| number | word |").concat();
    let pairs = cells.chunks_exact(2);
    let words = pairs.filter_map(|pair| Some((pair[0].parse().ok()?, pair[1].trim_matches('`'))));
    let mut words: Vec<_> = words.collect();
    words.sort();
    words
}

#[test]
fn words_are_those_of_the_table() {
    let paper = paper();
    let words = words(&paper);
    assert!(
        words.iter().map(|(number, _)| *number).eq(1..=17),
        "{words:?}"
    );
    for number in 0..40 {
        let mut out = [0xAA; WORD_MIN];
        let length = word(number, &mut out);
        let want = words.iter().find(|(of, _)| *of == number);
        let mut left = want.map_or(vec![], |(_, word)| word.as_bytes().to_vec());
        assert_eq!(length, left.len(), "{number}");
        left.resize(WORD_MIN, 0);
        assert_eq!(out[..], left, "{number}");
    }
}
