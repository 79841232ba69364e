//! The port against the recorded answers of the original.
use preset::PartitionSpec;
use replay::harness::ask::records::{Host, VALIDATE};
use replay::harness::met::Met;
use replay::harness::{ask, vector};
use replay::model;
use replay::model::answer::records::Read;

fn lines(name: &str) -> Vec<String> {
    let all = std::fs::read_to_string(vector::line::file(name)).expect(name);
    let kept = all.lines().filter(|l| !l.starts_with("# "));
    let lines: Vec<_> = kept.map(String::from).collect();
    assert!(lines.len() >= 150, "only {} answers", lines.len());
    lines
}

#[test]
fn every_recorded_text() {
    for line in lines("text.txt") {
        let (text, want) = vector::text::read(&line).unwrap_or_else(|e| panic!("{e} in {line}"));
        assert_eq!(
            vector::text::write(&text, &want),
            line,
            "read and written again"
        );
        let got = ask::text::ask(&text).unwrap_or_else(|e| panic!("{text:?}: {e}"));
        if let Some(difference) = got.difference(&want) {
            panic!("{text:?}: port against record, {difference}");
        }
    }
}

#[test]
fn every_recorded_value() {
    for line in lines("value.txt") {
        let (text, want) = vector::value::read(&line).unwrap_or_else(|e| panic!("{e} in {line}"));
        let again = vector::value::write(&text, &want);
        assert_eq!(again, line, "read and written again");
        let got = ask::value::ask(text.as_bytes()).unwrap_or_else(|e| panic!("{text:?}: {e}"));
        if let Some(difference) = got.difference(&want) {
            panic!("{text:?}: port against record, {difference}");
        }
    }
}

#[test]
fn every_recorded_document() {
    let mut host = ask::document::Host::default();
    for line in lines("document.txt") {
        let (text, want) =
            vector::document::read(&line).unwrap_or_else(|e| panic!("{e} in {line}"));
        let again = vector::document::write(&text, &want);
        assert_eq!(again, line, "read and written again");
        let got = host.judge_fully(&vector::document::joined(&text), &want);
        got.map_err(|e| panic!("{line}: port against record, {e}"))
            .ok();
    }
}

// The definitions as well as the port; they alone have sections and places.
// How often each number is met.
fn presets(file: &str, defined: fn(&[u8], &[u8]) -> Read, mut host: Host) -> Met {
    let mut met = Met::default();
    for line in lines(file) {
        let (name, text, recorded) =
            vector::records::read(&line).unwrap_or_else(|e| panic!("{e} in {line}"));
        let again = vector::records::write(&name, &text, &recorded);
        assert_eq!(again, line, "read and written again");
        let (parts, text) = (&text, vector::document::joined(&text));
        let want = defined(&text, &name);
        let shown = want.clone().map(|answer| (answer.text.made, answer.preset));
        let shown = vector::records::write(&name, parts, &shown);
        assert_eq!(shown, line, "definition against record");
        let got = host.judge_fully(&text, &name, &want);
        got.map_err(|e| panic!("{line}: port against record, {e}"))
            .ok();
        met.count(want.err().map_or(0, |refusal| refusal.number));
    }
    met
}

#[test]
fn every_recorded_preset() {
    let met = presets("records.txt", model::records::read, Host::default());
    assert_eq!(met.seldom(20..=25, 1), None, "{}", met.summary());
}

#[test]
fn every_recorded_verdict() {
    let met = presets("validate.txt", model::validate::read, Host::new(VALIDATE));
    let seldom = met.seldom(model::validate::NUMBERS, 3);
    assert_eq!(seldom, None, "{}", met.summary());
}

#[test]
fn every_recorded_plan() {
    let (mut met, mut host) = (Met::default(), Host::new(ask::plan::PLAN));
    for line in lines("plan.txt") {
        let (name, text, selected, recorded) =
            vector::plan::read(&line).unwrap_or_else(|e| panic!("{e} in {line}"));
        let again = vector::plan::write(&name, &text, &selected, &recorded);
        assert_eq!(again, line, "read and written again");
        let (parts, key) = (&text, selected.as_deref());
        let text = vector::document::joined(parts);
        let want = model::plan::read(&text, &name, key);
        let planned = want.as_ref().map_err(|e| *e).and_then(|answer| {
            let plan = model::plan::plan(&answer.preset, key)?;
            Ok((answer.text.made, plan))
        });
        let planned = vector::plan::write(&name, parts, &selected, &planned);
        assert_eq!(planned, line, "definition against record");
        host.selected = selected;
        let got = host.judge_fully(&text, &name, &want);
        got.map_err(|e| panic!("{line}: port against record, {e}"))
            .ok();
        met.count(want.err().map_or(0, |refusal| refusal.number));
    }
    let seldom = met.seldom(model::plan::NUMBERS, 5);
    assert_eq!(seldom, None, "{}", met.summary());
    assert!(met.of(0) >= 80, "{}", met.summary());
}

// Every number that the boot chain is refused with: neither 17, which goes by the rooms, nor 80 and 81.
#[test]
fn every_recorded_listing() {
    let (mut met, mut host) = (Met::default(), ask::listing::Host::default());
    for line in lines("listing.txt") {
        let (name, text, want) =
            vector::listing::read(&line).unwrap_or_else(|e| panic!("{e} in {line}"));
        let again = vector::listing::write(&name, &text, &want);
        assert_eq!(again, line, "read and written again");
        let text = vector::document::joined(&text);
        let defined = model::listing::read(&text, &name);
        assert_eq!(defined, want, "{line}: definition against record");
        let told = host.judge_fully(&text, &name, &want);
        told.unwrap_or_else(|e| panic!("{line}: port against record, {e}"));
        met.count(want.err().map_or(0, |refusal| refusal.number));
    }
    assert_eq!(met.unmet(), [80, 81], "{}", met.summary());
    assert!(met.of(0) >= 150, "{}", met.summary());
    assert!(met.of(0) + met.refused() >= 500, "{}", met.summary());
}

// Accepted presets with a locked partition, of those that are recorded by themselves and with their plans.
#[test]
fn recorded_locks() {
    let locked = |all: &[PartitionSpec]| all.iter().any(|part| part.locked);
    for file in ["records.txt", "validate.txt"] {
        let each = lines(file)
            .into_iter()
            .map(|line| vector::records::read(&line));
        let read = each.map(|line| line.expect("read above").2);
        let count = read
            .flatten()
            .filter(|(_, preset)| locked(&preset.partitions));
        assert!(count.count() >= 10, "{file}");
    }
    let each = lines("plan.txt")
        .into_iter()
        .map(|line| vector::plan::read(&line));
    let read = each.map(|line| line.expect("read above").3);
    let count = read.flatten().filter(|(_, plan)| locked(&plan.partitions));
    assert!(count.count() >= 10, "plan.txt");
}
