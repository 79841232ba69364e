//! A run from the command line: `[COUNT [SEED]]`, or `--only SEED NUMBER` for one text of a run.
use super::{Run, progress::Progress};
use replay::harness::met::Met;
use std::process::ExitCode;

/// The run of these words, `run` where they leave something out.
pub fn command(
    run: Run,
    words: &[String],
    enough: impl Fn(&Run, &Met) -> Result<(), String>,
) -> ExitCode {
    // a panic is told as the difference that it is
    std::panic::set_hook(Box::new(|_| ()));
    let words: Vec<_> = words.iter().map(String::as_str).collect();
    let told = match words[..] {
        ["--only", seed, number] => {
            let seed = parsed(seed);
            only(&Run { seed, ..run }, parsed(number))
        }
        [] => all(&run, enough),
        [count] => {
            let count = parsed(count);
            all(&Run { count, ..run }, enough)
        }
        [count, seed] => {
            let (count, seed) = (parsed(count), parsed(seed));
            all(&Run { count, seed, ..run }, enough)
        }
        _ => Err("usage: [COUNT [SEED]] | --only SEED NUMBER".into()),
    };
    let (told, code) = match told {
        Ok(told) => (told, ExitCode::SUCCESS),
        Err(told) => (told, ExitCode::FAILURE),
    };
    println!("{told}");
    code
}

fn parsed(word: &str) -> u64 {
    let number = word.parse();
    number.unwrap_or_else(|_| {
        println!("{word} is no number");
        std::process::exit(1)
    })
}

fn all(run: &Run, enough: impl Fn(&Run, &Met) -> Result<(), String>) -> Result<String, String> {
    println!("{} texts, seed {}", run.count, run.seed);
    let met = run
        .go(Progress::tell)
        .map_err(|difference| difference.told)?;
    let told = format!(
        "{} texts, no difference; answers: {}",
        run.count,
        met.summary()
    );
    match enough(run, &met) {
        Ok(()) => Ok(told),
        Err(e) => Err(format!("{told}\n{e}")),
    }
}

fn only(run: &Run, number: u64) -> Result<String, String> {
    let (text, told) = run.only(number);
    println!(
        "seed {}, text {number}: \"{}\"",
        run.seed,
        text.escape_ascii()
    );
    let answers = told.map_err(|difference| difference.told)?;
    Ok(format!("no difference\n{answers}"))
}
