//! The long run's loop, with few texts; and with sides that differ on purpose.
use differ::long::{All, enough};
use differ::run::Run;
use differ::run::sides::Sides;
use replay::generators::random::Rng;
use replay::harness::met::Met;

const RUN: Run = Run {
    sides: || Box::new(All::default()),
    count: 1_000,
    seed: 20_241_201,
};

#[test]
fn few_texts_of_all_sorts() {
    let met = RUN.go(|_| ()).unwrap_or_else(|e| panic!("{}", e.told));
    assert!(met.of(0) > 100 && met.numbers() > 40, "{}", met.summary());
    assert!((100..400).contains(&met.left_out()), "{}", met.summary());
    assert_eq!(enough(&RUN, &met), Ok(()));
    let many = Run {
        count: 100_000,
        ..RUN
    };
    let none = enough(&many, &Met::default()).expect_err("nothing was met");
    assert!(none.starts_with("never met: [1, 2, 3"), "{none}");
}

// Numbers, of which those with a 77 differ, or make a side panic.
struct Odd;

impl Sides for Odd {
    fn make(&mut self, r: &mut Rng) -> Vec<u8> {
        let lines = [r.below(1_000), r.below(1_000)].map(|n| format!("{n}\n"));
        lines.concat().into_bytes()
    }

    fn compare(&mut self, text: &[u8]) -> Result<(), String> {
        if !text.windows(2).any(|pair| pair == b"77") {
            return Ok(());
        }
        if text.len() > 2 {
            return Err("longer than it need be".into());
        }
        panic!("two of {}", 7)
    }

    fn answers(&self, text: &[u8]) -> String {
        format!("{} bytes are said to differ", text.len())
    }
}

#[test]
fn a_difference_is_told_with_its_number_and_shortened() {
    let run = Run {
        sides: || Box::new(Odd),
        count: 10_000,
        seed: 3,
    };
    let all = |number| run.only(number).1.is_ok();
    let found = run.go(|_| ()).expect_err("some texts differ");
    assert!(found.number > 1 && (1..found.number).all(all), "the first");
    let number = found.number;
    let want = format!(
        "seed 3, text {number} differs; again with `--only 3 {number}`\nthe shortest found, 2 bytes: \
         \"77\"\npanicked: two of 7\n2 bytes are said to differ"
    );
    assert_eq!(found.told, want);
    let (text, told) = run.only(number);
    assert!(text.windows(2).any(|pair| pair == b"77"));
    assert_eq!(told.expect_err("it differs").told, want);
}
