//! Texts of every sort: a fault is found for each that is refused, and its line matters.
use preset::{Fault, Preset, Refusal, Section, Selection, picture};
use replay::generators::mixed;
use replay::generators::random::Rng;

// The application that plans are asked for where there is one of that key.
const KEY: &str = "desk";

fn asked(text: &[u8]) -> Option<Refusal> {
    let selection = Selection::App(KEY.into());
    Preset::plan(text, b"board", &selection).err()
}

// The text before a line.
fn before(text: &[u8], line: usize) -> &[u8] {
    let mut ends = text.iter().enumerate().filter(|(_, b)| **b == b'\n');
    match line {
        1 => b"",
        _ => &text[..=ends.nth(line - 2).expect("a line").0],
    }
}

fn printable(text: &str) -> bool {
    !text.contains(|c: char| c.is_control() && c != '\t')
}

// Without the lines from the one that is told on, this fault is not there: it is told with other words, or is another;
// unless a key is written twice, where the newest value is told and an older one is as wrong.
fn matters(text: &[u8], fault: &Fault) -> bool {
    // an empty list or reference is told as none is
    let Some(line) = fault
        .line
        .filter(|_| !matches!(fault.refusal.number, 40 | 50 | 57))
    else {
        return true;
    };
    let text = before(text, line);
    let Some(refusal) = asked(text) else {
        return true;
    };
    let other = Fault::find(text, refusal, Some(KEY));
    let said = |f: &Fault| (f.refusal, f.entry.clone(), f.detail.clone());
    said(&other) != said(fault) || key(&other).is_some_and(|own| Some(own) == key(fault))
}

fn key(fault: &Fault) -> Option<&str> {
    Some(fault.text.as_deref()?.split_once('=')?.0.trim())
}

#[test]
fn every_refusal_is_led_to_its_line() {
    let mut r = Rng::new(7);
    let (mut met, mut lines) = (0, 0);
    for _ in 0..500 {
        let text = mixed::text(&mut r);
        let Some(refusal) = asked(&text) else {
            continue;
        };
        let fault = Fault::find(&text, refusal, Some(KEY));
        let shown = String::from_utf8_lossy(&text).into_owned();
        assert_eq!(fault.refusal, refusal);
        assert_eq!(fault.entry.is_some(), refusal.section != Section::Text);
        assert!(printable(&fault.to_string()), "{fault:?}");
        assert!(fault.text.as_deref().is_none_or(printable), "{fault:?}");
        if refusal.section != Section::Text {
            met += 1;
            lines += usize::from(fault.line.is_some());
            assert!(matters(&text, &fault), "{fault:?} in\n{shown}");
        } else if refusal.place > 0 {
            assert_eq!(fault.line, Some(refusal.place as usize));
        }
        if let Some(drawing) = picture::refused(&text, b"board", &fault, Some(KEY)) {
            let drawn = drawing.terminal();
            assert!(drawn.lines().all(printable), "{drawn:?}");
        }
    }
    println!("{met} met, {lines} with a line");
    assert!(met > 250 && lines > 150, "{met} met, {lines} with a line");
}
