//! Times both sides on the same texts: `cargo run --release --offline --bin bench [PART]`, where PART is one
//! of text, joining, value, document, records, validate, plan, listing, growth, emptying and worst; all without one.
mod growth;
mod joining;
mod parts;
mod presets;
mod rooms;
mod texts;
mod timing;
mod worst;

use presets::presets;

const PARTS: [(&str, fn()); 11] = [
    ("text", parts::texts),
    ("joining", joining::joining),
    ("value", parts::values),
    ("document", parts::documents),
    ("records", || presets(&presets::READ, presets::READ_NOTE)),
    ("validate", || {
        presets(&presets::VALIDATE, presets::VALIDATE_NOTE)
    }),
    ("plan", || {
        presets(&presets::BOOT_CHAIN, presets::BOOT_CHAIN_NOTE);
        presets(&presets::APPLICATION, presets::APPLICATION_NOTE);
        presets(&presets::WHOLE, presets::WHOLE_NOTE);
    }),
    ("listing", || {
        presets(&presets::LISTING, presets::LISTING_NOTE);
        presets::names();
    }),
    ("growth", growth::growth),
    ("emptying", rooms::emptying),
    ("worst", worst::worst),
];

fn main() {
    let only = std::env::args().nth(1);
    let wanted = |name: &str| only.as_deref().is_none_or(|o| o == name);
    let chosen = PARTS.iter().filter(|(name, _)| wanted(name));
    let run = chosen.map(|(_, run)| run()).count();
    if run == 0 {
        let names = PARTS.map(|(name, _)| name).join(", ");
        eprintln!("no such part; there are {names}");
        std::process::exit(1);
    }
}
