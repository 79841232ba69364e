//! docs/DIFFERENCES.md, row by row: what is asked there is answered as it says.
use port::document::{self, Outcome, Table, Value};
use port::plans::{self, Selection};
use port::records::{self, Rooms};
use port::text::TEXT_MAX;
use port::value::{ARRAYS_MAX, SEGMENTS_MAX, STORE_MIN, TREE_MIN, VALUES_MAX};
use preset::{PlannedComponent, Preset, Source, owned};
use replay::harness::differences::{Row, code, refusal, rows, toml_tables};
use replay::harness::rooms::holds;
use replay::model::records::written;
use std::collections::BTreeSet;

// Fewer are a table that was skipped.
const TOML_TABLES: usize = 8;
const TOML_ROWS: usize = 148;
const ORIGINAL_ROWS: usize = 25;

// A text as it is written in a table.
fn bytes(written: &str) -> Result<Vec<u8>, String> {
    let (mut out, mut rest) = (Vec::new(), written);
    while let Some((plain, escape)) = rest.split_once('\\') {
        out.extend(plain.bytes());
        let (decoded, after) = unescaped(escape).ok_or(format!("escape of \\{escape}"))?;
        out.extend(decoded);
        rest = after;
    }
    out.extend(rest.bytes());
    Ok(out)
}

// What an escape stands for, and what is after it.
fn unescaped(escape: &str) -> Option<(Vec<u8>, &str)> {
    let after = escape.get(1..)?;
    let plain = |byte| Some((vec![byte], after));
    match escape.as_bytes()[0] {
        b'n' => plain(b'\n'),
        b'r' => plain(b'\r'),
        b't' => plain(b'\t'),
        b'\\' => plain(b'\\'),
        b'x' => {
            let byte = u8::from_str_radix(after.get(..2)?, 16).ok()?;
            Some((vec![byte], &after[2..]))
        }
        b'u' => {
            let (digits, after) = after.strip_prefix('{')?.split_once('}')?;
            let c = char::from_u32(u32::from_str_radix(digits, 16).ok()?)?;
            Some((c.to_string().into_bytes(), after))
        }
        _ => None,
    }
}

// A string or a key of a tree; they are UTF-8, as the text is.
fn characters(s: &[u8]) -> &str {
    str::from_utf8(s).expect("a part of a text")
}

fn quoted(s: &str) -> String {
    let each = s.chars().map(|c| match c {
        '"' | '\\' => format!("\\{c}"),
        ' '..='~' => c.to_string(),
        '\n' => "\\n".into(),
        '\r' => "\\r".into(),
        '\t' => "\\t".into(),
        _ => format!("\\u{{{:x}}}", u32::from(c)),
    });
    format!("\"{}\"", each.collect::<String>())
}

fn key(k: &[u8]) -> String {
    let bare = |b: &u8| b.is_ascii_alphanumeric() || b"-_".contains(b);
    if k.iter().all(bare) && !k.is_empty() {
        characters(k).into()
    } else {
        quoted(characters(k))
    }
}

fn value(v: &Value) -> String {
    match v {
        Value::Str(s) => quoted(characters(s)),
        Value::Int(i) => i.to_string(),
        Value::Bool(b) => b.to_string(),
        Value::Array(items) => {
            let items: Vec<_> = items.iter().map(value).collect();
            format!("[{}]", items.join(", "))
        }
        Value::Table(table) => format!("{{{}}}", entries(table).join("; ")),
    }
}

// Each value with the keys that lead to it; a table is shown by what is in it, if anything is.
fn entries(table: &Table) -> Vec<String> {
    let each = table.iter().flat_map(|(k, v)| match v {
        Value::Table(inner) if !inner.is_empty() => {
            let below = entries(inner).into_iter();
            below.map(|e| format!("{}.{e}", key(k))).collect()
        }
        _ => vec![format!("{} = {}", key(k), value(v))],
    });
    each.collect()
}

fn tree(rooms: Rooms) -> String {
    let root = document::rebuild(rooms.tree, rooms.store, rooms.made);
    entries(&root.expect("a tree")).join("; ")
}

type Lent<'a> = (&'a mut [u8], &'a mut [u8]);

// What is answered with rooms of these sizes, and shown of them where it is accepted.
fn asked(
    (store, tree): (usize, usize),
    ask: impl Fn(Lent) -> Outcome,
    show: impl Fn(Rooms) -> String,
) -> String {
    let (mut store, mut tree) = (vec![0xAA; store], vec![0xAA; tree]);
    let got = ask((&mut store, &mut tree));
    if got.number != 0 {
        holds(&store, b"").expect("an empty store");
        holds(&tree, b"").expect("an empty tree room");
        return refusal(got);
    }
    let made = got.made as usize;
    let (tree, store) = (&tree, &store);
    let shown = format!("accepted {}", show(Rooms { tree, store, made }));
    shown.trim_end().into()
}

const ENOUGH: (usize, usize) = (STORE_MIN, TREE_MIN);

// The text as a tree.
fn read(text: &[u8]) -> String {
    read_in(ENOUGH, text)
}

fn read_in(rooms: (usize, usize), text: &[u8]) -> String {
    asked(rooms, |(s, t)| document::read(text, s, t), tree)
}

// The text as a preset, for a board of that name.
fn preset(text: &[u8], name: &[u8], show: fn(&Preset) -> String) -> String {
    let ask = |(s, t): Lent| records::read(text, name, s, t);
    let shown = |rooms: Rooms| show(&owned::preset(rooms, name).expect("records"));
    asked(ENOUGH, ask, shown)
}

// The same, where its tree is looked at.
fn preset_tree(text: &[u8]) -> String {
    let ask = |(s, t): Lent| records::read(text, b"board", s, t);
    asked(ENOUGH, ask, tree)
}

// A preset that is refused.
fn listed(text: String) -> String {
    preset_tree(text.as_bytes())
}

fn board_name(name: &[u8]) -> String {
    let shown = |p: &Preset| format!("board.name = {}", quoted(&p.board.name));
    preset(b"", name, shown)
}

const BASE: &str = "[[partition]]\nname = \"a\"\noffset = 0\nsize = 4096\n[[component]]\nname = \"x\"\npartition = \"a\"\n";

// The plan of one component with these lines, by its boot chain or with an application.
fn planned(lines: &str, selected: Option<&[u8]>, show: fn(&PlannedComponent) -> String) -> String {
    let text = format!("{BASE}{lines}");
    let (name, selection) = (b"board", Selection::from(selected));
    let ask = |(s, t): Lent| plans::plan(text.as_bytes(), name, selection, s, t);
    let shown = |rooms: Rooms| {
        let plan = owned::plan(rooms, name, selection).expect("a plan");
        show(&plan.components[0])
    };
    asked(ENOUGH, ask, shown)
}

fn filed(source: Option<&Source>) -> String {
    match source {
        Some(Source::File(path)) => quoted(written(path)),
        other => format!("{other:?}"),
    }
}

fn each(count: usize, entry: fn(usize) -> String) -> String {
    (0..count).map(entry).collect()
}

fn partition(i: usize) -> String {
    format!("[[partition]]\nname = \"p{i}\"\noffset = {i}\nsize = 1\n")
}

fn features(head: &str) -> String {
    let words = each(33, |i| format!("f{i} "));
    listed(format!("{head} = \"{words}\""))
}

type Built = (&'static str, fn() -> String);

// What is asked in plain words, with its answer.
const BUILT: [Built; 20] = [
    ("a text of 32,769 bytes", || read(&[b' '; TEXT_MAX + 1])),
    ("a store of 32,767 bytes", || {
        read_in((STORE_MIN - 1, TREE_MIN), b"")
    }),
    ("a tree room of 65,535 bytes", || {
        read_in((STORE_MIN, TREE_MIN - 1), b"")
    }),
    ("17 arrays inside one another", || {
        let (open, close) = ("[".repeat(ARRAYS_MAX + 1), "]".repeat(ARRAYS_MAX + 1));
        read(format!("a = {open}{close}").as_bytes())
    }),
    ("a key of 17 segments", || {
        read(format!("{}a = 1", "a.".repeat(SEGMENTS_MAX)).as_bytes())
    }),
    ("a header of 17 segments", || {
        read(format!("[{}a]", "a.".repeat(SEGMENTS_MAX)).as_bytes())
    }),
    ("an array of 2,048 numbers", || {
        read(format!("a = [{}]", "1,".repeat(VALUES_MAX)).as_bytes())
    }),
    ("33 partitions", || listed(each(33, partition))),
    ("65 components", || {
        listed(each(65, |i| format!("[[component]]\nname = \"c{i}\"\n")))
    }),
    ("65 applications", || {
        listed(each(65, |i| format!("[apps.a{i}]\n")))
    }),
    ("33 features of a component", || {
        features("[[component]]\nname = \"c\"\nfeatures")
    }),
    ("33 PBP features of a component", || {
        features("[[component]]\nname = \"c\"\npbp_features")
    }),
    ("33 features of an application", || {
        features("[apps.a]\nfeatures")
    }),
    ("a board without a name, and `d/x.toml` lent", || {
        board_name(b"d/x.toml")
    }),
    ("a board without a name, and an empty one lent", || {
        board_name(b"")
    }),
    ("the plan of a component with the file `a.bin`", || {
        planned("file = \"a.bin\"", None, |c| {
            format!("source = {}", filed(Some(&c.source)))
        })
    }),
    ("the plan of a component with the pbp `p.bin`", || {
        planned("package = \"p\"\npbp = \"p.bin\"", None, |c| {
            format!("pbp = {}", filed(c.pbp_source.as_ref()))
        })
    }),
    (
        "the plan of a component with the private file `k.pem`",
        || {
            planned("package = \"p\"\nprivate = \"k.pem\"", None, |c| {
                format!(
                    "private = {}",
                    quoted(written(c.spec.private.as_deref().unwrap()))
                )
            })
        },
    ),
    (r"a component with the file `d\x.bin`", || {
        let text = format!("{BASE}file = \"d\\\\x.bin\"");
        preset(text.as_bytes(), b"board", |p| {
            format!("filename = {}", quoted(&p.components[0].filename))
        })
    }),
    ("the plan of an application whose key is not UTF-8", || {
        let own = "package = \"p\"\n[apps.k]\npartition = \"a\"";
        planned(own, Some(b"k\xFF"), |_| String::new())
    }),
];

// What the row asks, answered.
fn answer(row: &Row) -> Result<String, String> {
    if let Some(text) = code(row.asked) {
        let ask = if row.of_toml { read } else { preset_tree };
        return Ok(ask(&bytes(text)?));
    }
    let mut built = BUILT.iter().filter(|(name, _)| *name == row.asked);
    let (_, ask) = built.next().ok_or("nobody builds this")?;
    Ok(ask())
}

#[test]
fn every_row_is_answered_as_written() {
    let wrong = rows().into_iter().filter_map(|row| {
        let got = answer(&row).unwrap_or_else(|e| e);
        let told = format!("line {}: {}: {got}, not {}", row.line, row.asked, row.here);
        (got != row.here).then_some(told)
    });
    let wrong: Vec<_> = wrong.collect();
    assert!(wrong.is_empty(), "\n{}", wrong.join("\n"));
}

// TOML has no numbers for refusals.
#[test]
fn every_row_departs_from_toml() {
    for row in rows().iter().filter(|row| row.of_toml) {
        let theirs = code(row.theirs).unwrap_or_else(|| panic!("line {}: no code", row.line));
        let known = theirs == "refused" || theirs.starts_with("accepted ");
        assert!(known, "line {}: {theirs}", row.line);
        let ours = row
            .here
            .strip_prefix("refused ")
            .map_or(row.here, |_| "refused");
        assert_ne!(ours, theirs, "line {}: no departure", row.line);
    }
}

#[test]
fn no_row_is_lost() {
    let (rows, tables) = (rows(), toml_tables());
    let of_toml = rows.iter().filter(|row| row.of_toml).count();
    assert!(tables >= TOML_TABLES, "{tables} tables");
    assert!(of_toml >= TOML_ROWS, "{of_toml} rows");
    let others = rows.len() - of_toml;
    assert!(others >= ORIGINAL_ROWS, "{others} rows");
    let asked: BTreeSet<_> = rows.iter().map(|row| row.asked).collect();
    assert_eq!(asked.len(), rows.len(), "a row stands twice");
    for (name, _) in BUILT {
        assert!(asked.contains(name), "no row asks for {name}");
    }
}
