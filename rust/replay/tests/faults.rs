//! Every function that starts from a text, lent all sorts of rooms and handed anything: an answer each time,
//! the same twice, nothing beside the rooms or after a listing's lines changed, and rooms that are zero after
//! a refusal.
use port::text::TEXT_MAX;
use replay::generators::mixed;
use replay::generators::random::Rng;
use replay::generators::records::random::EXAMPLES;
use replay::harness::faults::{Bench, FUNCTIONS, Function, Input, Said, least};
use replay::harness::rooms::holds;
use replay::model::plan as model;
use std::ops::Range;
use std::thread;

const NAME: &[u8] = b"board";
// Declared in the first example, and in no other.
const KEY: &[u8] = b"desk";
const MOST: usize = TEXT_MAX + 4_096;

fn input(text: &[u8]) -> Input<'_> {
    let (name, key) = (NAME, KEY);
    Input { text, name, key }
}

// All functions, beside the definitions.
fn judged(bench: &mut Bench, input: Input) -> Said {
    let about = || {
        format!(
            "\"{}\"",
            input.text[..input.text.len().min(MOST)].escape_ascii()
        )
    };
    let said = bench
        .all(input)
        .unwrap_or_else(|e| panic!("{}: {e}", about()));
    let want = match model::read(input.text, input.name, Some(input.key)) {
        Ok(answer) => [0, 0, 0, answer.text.made],
        Err(e) => [e.number as usize, e.section as usize, e.place, 0],
    };
    let got = [said.number, said.section, said.place, said.count];
    assert_eq!(got.map(|n| n as usize), want, "{}", about());
    said
}

// The examples and so many random ones.
fn texts(seed: u64, count: usize) -> Vec<Vec<u8>> {
    let mut r = Rng::new(seed);
    let mut all: Vec<Vec<u8>> = EXAMPLES.map(|text| text.into()).into();
    all.extend((0..count).map(|_| mixed::text(&mut r)));
    all.iter_mut().for_each(|text| text.truncate(MOST));
    all
}

// Whole pages, so that nothing but protected ones stands around the store and the tree room; the output's
// length is of whole pages with two of the names.
#[test]
fn exact_rooms() {
    for (name, ending) in [(256, true), (2_304, true), (5, true), (5, false)] {
        let name = &vec![b'n'; name];
        let [_, _, out] = least(name);
        assert_eq!(out % 4_096 == 0, name.len() > 5, "{out}");
        let mut bench = Bench::new(least(name), ending, MOST);
        for text in &texts(31, 300) {
            let key = KEY;
            judged(&mut bench, Input { text, name, key });
        }
    }
}

// 17 of whatever is lent that room, before any other refusal.
#[test]
fn short_rooms() {
    let long = vec![b'['; TEXT_MAX + 1];
    let texts = [b"", EXAMPLES[0].as_bytes(), b"]", b"\xFF", &long];
    for (short, by) in [0, 1, 2].iter().flat_map(|n| [(*n, 1), (*n, 4_097)]) {
        for ending in [true, false] {
            let mut lengths = least(NAME);
            lengths[short] -= by;
            let mut bench = Bench::new(lengths, ending, MOST);
            for (text, function) in texts
                .iter()
                .flat_map(|t| FUNCTIONS.iter().map(move |f| (t, f)))
            {
                let said = bench
                    .twice(function, input(text))
                    .unwrap_or_else(|e| panic!("{e}"));
                let lent = short < function.rooms;
                assert_eq!(said.number == 17, lent, "{}, room {short}", function.called);
            }
        }
    }
}

// The same answer and the same bytes as in rooms as small as can be, and then zeros; of an output the same
// lines.
#[test]
fn long_rooms() {
    let mut exact = Bench::new(least(NAME), true, MOST);
    for more in [1, 31, 4_096, 100_001] {
        let mut long = Bench::new(least(NAME).map(|n| n + more), more % 2 == 0, MOST);
        for text in &texts(32, 100) {
            FUNCTIONS
                .iter()
                .for_each(|f| same(f, input(text), [&mut exact, &mut long]));
        }
    }
}

fn same(function: &Function, input: Input, [exact, long]: [&mut Bench; 2]) {
    let about = input.text.escape_ascii();
    let said = [&mut *exact, &mut *long].map(|bench| bench.twice(function, input));
    assert_eq!(said[0], said[1], "{about}");
    let said = *said[0].as_ref().unwrap_or_else(|e| panic!("{about}: {e}"));
    let lent = exact.lent(function, said);
    for (short, long) in lent.into_iter().zip(long.lent(function, said)) {
        holds(long, short).unwrap_or_else(|e| panic!("{about}: {e}"));
    }
}

// Each of the six with nothing in it or as it should be, in all combinations.
#[test]
fn empty_slices() {
    for bits in 0..64 {
        let some = |n: usize| bits >> n & 1 == 1;
        let part = |n, all: &'static [u8]| if some(n) { all } else { &[] };
        let input = Input {
            text: part(0, EXAMPLES[0].as_bytes()),
            name: part(1, NAME),
            key: part(2, KEY),
        };
        let mut lengths = least(input.name);
        (0..3).filter(|n| !some(3 + n)).for_each(|n| lengths[n] = 0);
        let mut bench = Bench::new(lengths, true, MOST);
        for function in FUNCTIONS {
            let said = bench
                .twice(function, input)
                .unwrap_or_else(|e| panic!("{e}"));
            let full = (0..function.rooms).all(|n| some(3 + n));
            // without a text there are no partitions, and without its key no application is declared
            let want = if !full {
                17
            } else if !some(0) {
                [0, 40][usize::from(function.last >= 40)]
            } else if !some(2) {
                [0, 80][usize::from(function.last >= 80)]
            } else {
                0
            };
            assert_eq!(said.number, want, "{}, {bits:06b}", function.called);
        }
    }
}

// Whole, in pieces of all lengths, as characters, and as a name and a key.
#[test]
fn a_mebibyte_of_random_bytes() {
    let mut r = Rng::new(33);
    let noise: Vec<u8> = (0..1 << 20).map(|_| r.draw() as u8).collect();
    let plain: Vec<u8> = noise.iter().map(|b| b & 0x7F).collect();
    let mut bench = Bench::new(least(&noise), true, noise.len());
    for text in [&noise, &plain] {
        assert_eq!(judged(&mut bench, input(text)).number, 1);
    }
    let (text, name, key) = (EXAMPLES[0].as_bytes(), &noise, &noise);
    assert_eq!(judged(&mut bench, Input { text, name, key }).number, 80);
    let mut bench = Bench::new(least(NAME), true, MOST);
    for all in [&noise, &plain] {
        let mut rest = &all[..];
        while !rest.is_empty() {
            let some = [20, 400, 8_000, MOST][r.below(4)];
            let (text, more) = rest.split_at(rest.len().min(1 + r.below(some)));
            judged(&mut bench, input(text));
            rest = more;
        }
    }
}

#[test]
fn every_prefix() {
    for text in EXAMPLES {
        let mut bench = Bench::new(least(NAME), true, MOST);
        for end in 0..=text.len() {
            judged(&mut bench, input(&text.as_bytes()[..end]));
        }
    }
}

// Every byte to every other, of the two longer examples to some others.
#[test]
fn every_byte_changed() {
    const SOME: [u8; 3] = *b"\n\"]";
    let all: Vec<u8> = (0..=255).collect();
    thread::scope(|scope| {
        for (text, bytes) in EXAMPLES.into_iter().zip([&all[..], &SOME, &SOME]) {
            let half = text.len() / 2;
            scope.spawn(move || changed(text.as_bytes(), 0..half, bytes));
            scope.spawn(move || changed(text.as_bytes(), half..text.len(), bytes));
        }
    });
}

fn changed(text: &[u8], places: Range<usize>, bytes: &[u8]) {
    let mut bench = Bench::new(least(NAME), true, MOST);
    let mut changed = text.to_vec();
    for at in places {
        for byte in bytes {
            changed[at] = *byte;
            judged(&mut bench, input(&changed));
        }
        changed[at] = text[at];
    }
}
