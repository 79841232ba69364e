//! Calls every function that starts from a text, with texts, names and rooms that are heap blocks of their
//! exact lengths. Run under valgrind (`rust/valgrind`), which sees every byte read or written beside them.
use port::text::TEXT_MAX;
use replay::generators::random::Rng;
use replay::generators::records::random::EXAMPLES;
use replay::generators::{large, mixed, names};
use replay::harness::faults::{FUNCTIONS, Input, least};

fn main() {
    let (mut calls, mut accepted) = (0, 0);
    for (n, text) in texts().iter().enumerate() {
        let name = names::nth_lent(n).to_vec().into_boxed_slice();
        let key = b"desk".to_vec().into_boxed_slice();
        for function in FUNCTIONS {
            for short in [None, Some(n % function.rooms)] {
                let mut lengths = least(&name);
                short.iter().for_each(|&room| lengths[room] -= 1);
                let mut rooms = lengths.map(|length| vec![0xAA; length].into_boxed_slice());
                let input = Input {
                    text,
                    name: &name,
                    key: &key,
                };
                let said = function.judge(input, rooms.each_mut().map(|room| &mut **room));
                let said = said.unwrap_or_else(|e| panic!("{}: {e}", text.escape_ascii()));
                let written = function.written(said).unwrap_or(lengths[2]);
                let kept = rooms[2][written..].iter().all(|&b| b == 0xAA);
                assert!(kept, "{}: changed after the lines", function.called);
                assert_eq!(said.number == 17, short.is_some(), "{}", function.called);
                calls += 1;
                accepted += usize::from(said.number == 0);
            }
        }
    }
    println!("{calls} calls, {accepted} accepted");
}

// The examples, parts of the first, texts at the limit and over it, the longest listing, bytes, and random ones of all
// sorts.
fn texts() -> Vec<Box<[u8]>> {
    let mut r = Rng::new(41);
    let mut all: Vec<Vec<u8>> = EXAMPLES.map(|text| text.into()).into();
    let first = EXAMPLES[0].as_bytes();
    let parts = (0..first.len()).step_by(9);
    all.extend(parts.map(|end| first[..end].to_vec()));
    let filled = |length| [first, &vec![b'#'; length - first.len()]].concat();
    all.extend([TEXT_MAX, TEXT_MAX + 1].map(filled));
    all.push(large::escaped().into_bytes());
    all.push((0..TEXT_MAX).map(|_| r.draw() as u8).collect());
    all.extend((0..400).map(|_| mixed::text(&mut r)));
    all.into_iter().map(Vec::into_boxed_slice).collect()
}
