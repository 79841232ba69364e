//! The original's answers in full, found by calling nothing but the original.
use oracle::toml_lite::probe as rust;
use replay::model::answer::text::{Answer, Joined, Refusal};

/// Everything the original says about a text. Costs a pass over every prefix.
pub fn answer(text: &str) -> Answer {
    build(text, by_prefixes(text))
}

/// The same at less cost, for long texts: what follows a closed prefix is asked about alone.
pub fn answer_long(text: &str) -> Answer {
    build(text, by_parts(text))
}

fn build(text: &str, (lines, refusal): (Vec<Joined>, Option<Refusal>)) -> Answer {
    Answer {
        trim: trim(text),
        kept: kept(text),
        scan: scan(text),
        laid: laid(text),
        lines,
        refusal,
    }
}

/// The part that `str::trim` leaves; all white space counts as leading.
pub fn trim(text: &str) -> (usize, usize) {
    let from = text.len() - text.trim_start().len();
    (from, from + text.trim().len())
}

fn kept(text: &str) -> usize {
    let kept = rust::strip_comment(text);
    assert!(text.starts_with(&kept), "the kept part of {text:?}");
    kept.len()
}

fn laid(text: &str) -> String {
    let kept = text.lines().map(rust::strip_comment);
    kept.flat_map(|line| [line, "\n".to_string()]).collect()
}

// A quote added at the end ends an open string, except after a backslash; then one more does.
fn scan(text: &str) -> (u8, usize, usize) {
    let closing = ["", "\"", "\"\""];
    let closes = |end: &&str| rust::quotes_closed(&format!("{text}{end}"));
    let state = closing.iter().position(closes).expect("two quotes end it");
    let end = closing[state];
    let opens = net(&text.replace(']', "a"), '[', end, "]");
    let closes = net(&text.replace('[', "a"), ']', end, "[");
    (state as u8, opens, closes)
}

// How many brackets must follow for the original to call the text balanced, by halving; the text
// has brackets of one kind alone.
fn net(text: &str, kind: char, end: &str, bracket: &str) -> usize {
    let judge = |n| rust::brackets_balanced(&format!("{text}{end}{}", bracket.repeat(n)));
    // too few leave the text as it was: short of `]`, or of `[`
    let few = if bracket == "]" { Some(false) } else { None };
    let (mut low, mut high) = (0, text.matches(kind).count());
    while low < high {
        let middle = (low + high) / 2;
        if judge(middle).ok() == few {
            low = middle + 1;
        } else {
            high = middle;
        }
    }
    assert_eq!(judge(low), Ok(true), "{text:?}");
    low
}

fn refusal_of(error: &str) -> u32 {
    match error {
        e if e.starts_with("unbalanced ']'") => 3,
        e if e.starts_with("unbalanced value") => 4,
        e => panic!("unforeseen message: {e}"),
    }
}

/// The joined lines with their numbers, and the refusal with its place: line `k` starts a joined
/// line where the lines before it are closed and it adds a line or an error.
pub fn by_prefixes(text: &str) -> (Vec<Joined>, Option<Refusal>) {
    let (mut lines, mut open, mut end) = (Vec::<Joined>::new(), None, 0);
    for (k, piece) in text.split_inclusive('\n').enumerate() {
        end += piece.len();
        match rust::logical_lines(&text[..end]) {
            Ok(all) => {
                let new = &all[lines.len()..];
                assert!(new.len() <= 1, "two lines from one in {text:?}");
                let at = open.take().unwrap_or(k + 1);
                lines.extend(new.iter().map(|line| (at, line.clone())));
                assert!(
                    all.iter().eq(lines.iter().map(|(_, line)| line)),
                    "{text:?}"
                );
            }
            Err(error) => {
                let at = *open.get_or_insert(k + 1);
                if refusal_of(&error) == 3 {
                    return (lines, Some((3, at)));
                }
            }
        }
    }
    (lines, open.map(|at| (4, at)))
}

/// The same where each part between closed places is handed to the original by itself.
pub fn by_parts(text: &str) -> (Vec<Joined>, Option<Refusal>) {
    let (mut lines, mut open, mut from, mut end) = (Vec::new(), None, 0, 0);
    for (k, piece) in text.split_inclusive('\n').enumerate() {
        end += piece.len();
        match rust::logical_lines(&text[from..end]) {
            Ok(new) => {
                let at = open.take().unwrap_or(k + 1);
                lines.extend(new.into_iter().map(|line| (at, line)));
                from = end;
            }
            Err(error) => {
                let at = *open.get_or_insert(k + 1);
                if refusal_of(&error) == 3 {
                    return (lines, Some((3, at)));
                }
            }
        }
    }
    (lines, open.map(|at| (4, at)))
}

/// Whether the original's answer to the whole text is the one that was put together.
pub fn whole_agrees(text: &str, answer: &Answer) -> bool {
    match (rust::logical_lines(text), answer.refusal) {
        (Ok(all), None) => all.iter().eq(answer.lines.iter().map(|(_, line)| line)),
        (Err(error), Some((number, _))) => refusal_of(&error) == number,
        _ => false,
    }
}
