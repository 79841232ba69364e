//! Locked partitions by the definitions and the port, which the original does not know.
use preset::{Preset, Selection};
use replay::generators::locks::{Corner, all};
use replay::generators::plan::random;
use replay::generators::random::{Rng, turns};
use replay::harness::ask::records::{self, Host, VALIDATE};
use replay::harness::ask::{listing, plan};
use replay::model;
use replay::model::answer::records::Read;

// The locks of an accepted preset, or its refusal.
fn said(read: &Read) -> String {
    match read {
        Ok(answer) => {
            let each = answer.preset.partitions.iter();
            let words: Vec<_> = each
                .map(|p| if p.locked { "locked" } else { "open" })
                .collect();
            words.join(" ")
        }
        Err(e) => format!("refused {} {} {}", e.number, e.section, e.place),
    }
}

fn judged(
    (pieces, want): &Corner,
    hosts: &mut [Host; 3],
    listings: &mut listing::Host,
) -> Result<(), String> {
    let (text, name) = (pieces.concat().into_bytes(), b"board");
    let read = model::validate::read(&text, name);
    assert_eq!(said(&read), *want, "{}", text.escape_ascii());
    let [records, rules, plans] = hosts;
    records
        .judge_fully(&text, name, &model::records::read(&text, name))?
        .ok();
    rules.judge_fully(&text, name, &read)?.ok();
    plan::judge(plans, &text, name, &read)?;
    listings.judge_fully(&text, name, &model::listing::read(&text, name))
}

#[test]
fn corners() {
    let mut hosts = [records::RECORDS, VALIDATE, plan::PLAN].map(Host::new);
    let mut listings = listing::Host::default();
    for corner in all() {
        let told = judged(corner, &mut hosts, &mut listings);
        told.unwrap_or_else(|e| panic!("{:?}: port against definition, {e}", corner.0.concat()));
    }
}

// The partition that a planned application names is open, also where others are locked.
#[test]
fn planned_applications() {
    let (mut r, mut planned, mut beside) = (Rng::new(1), 0, 0);
    for _ in 0..turns(3_000) {
        let text = random::text(&mut r);
        let read = Preset::validate(&text, b"board");
        for (key, app) in read.into_iter().flat_map(|preset| preset.apps) {
            let Ok(plan) = Preset::plan(&text, b"board", &Selection::App(key)) else {
                continue;
            };
            let own = plan.components.iter().find(|c| c.spec.name == app.name);
            let named = &own.expect("it is planned").spec.partition;
            let at = plan.partitions.iter().find(|part| part.name == *named);
            let open = at.is_some_and(|part| !part.locked);
            assert!(open, "{}", text.escape_ascii());
            planned += 1;
            beside += usize::from(plan.partitions.iter().any(|part| part.locked));
        }
    }
    let (many, some) = (turns(3_000), turns(300));
    assert!(
        planned > many && beside > some,
        "{planned}, {beside} beside locks"
    );
}
