//! The readers of listings that docs/FORMAT.md has, cut out of it and run over listings with all sorts of names.
use preset::Preset;
use replay::generators::random::{Rng, turns};
use replay::generators::records::random::EXAMPLES;
use replay::generators::{large, listing, names};
use replay::model::listing::{Field, Line, fields};
use std::io::Write;
use std::path::{Path, PathBuf};
use std::process::{Command, Stdio};

const PAPER: &str = include_str!("../../../docs/FORMAT.md");

// Number n of the blocks in that language, as a file.
fn block(language: &str, n: usize) -> PathBuf {
    let fence = format!("\n```{language}\n");
    let after = PAPER.split(&*fence).nth(n + 1).expect("a block");
    let (own, _) = after.split_once("\n```").expect("its end");
    written(&format!("{n}.{language}"), own)
}

fn written(name: &str, text: &str) -> PathBuf {
    let path = Path::new(env!("CARGO_TARGET_TMPDIR")).join(format!("reader-{name}"));
    std::fs::write(&path, format!("{text}\n")).expect("target/ can be written");
    path
}

// What a command prints of this input; nothing where there is no such command, or it fails.
fn told(command: &[&str], input: &[u8]) -> Option<Vec<u8>> {
    let piped = Command::new(command[0])
        .args(&command[1..])
        .env("LC_ALL", "C")
        .stdin(Stdio::piped())
        .stdout(Stdio::piped())
        .spawn();
    let mut child = piped.ok()?;
    let mut pipe = child.stdin.take().expect("a pipe");
    let told = std::thread::scope(|scope| {
        scope.spawn(move || pipe.write_all(input).ok());
        child.wait_with_output().expect("an answer")
    });
    told.status.success().then_some(told.stdout)
}

// Listings of the library, one after the other, and the fields of the records that each is made of.
#[derive(Default)]
struct Listings {
    printed: Vec<u8>,
    lines: Vec<Line>,
}

impl Listings {
    fn of(texts: impl IntoIterator<Item = Vec<u8>>) -> Self {
        let mut out = Listings::default();
        for text in texts {
            if let Ok(fields) = fields(&text, b"lent \"name\"") {
                let lines = Preset::listing(&text, b"lent \"name\"").expect("accepted");
                out.printed.extend(lines);
                out.lines.extend(fields);
            }
        }
        out
    }

    // One name in all places, the longest lines, the examples and random ones.
    fn all() -> Self {
        let mut r = Rng::new(203);
        let odd = names::all().into_iter();
        let odd = odd.flat_map(|name| [true, false].map(|leads| names::everywhere(&name, leads).0));
        let large = [large::escaped(), large::long_names(true)];
        let fixed = odd.chain(large).chain(EXAMPLES.map(String::from));
        let random = (0..turns(500)).map(|_| listing::text(&mut r));
        let mut out = Listings::of(fixed.map(String::into_bytes).chain(random));
        out.printed.extend(b"refused 40 3 0\n");
        let numbers = [40, 3, 0].map(Field::Number);
        out.lines.push(vec![Field::Word("refused".into())]);
        out.lines.last_mut().expect("it").extend(numbers);
        out
    }

    // The lines without NUL.
    fn without_nul(&self) -> Self {
        let each = self.printed.split_inclusive(|&b| b == b'\n');
        let each = each.zip(&self.lines).filter(|(line, _)| !line.contains(&0));
        let (printed, lines): (Vec<_>, Vec<_>) = each.unzip();
        Listings {
            printed: printed.concat(),
            lines: lines.into_iter().cloned().collect(),
        }
    }
}

// A field as awk has it, and whether it stood in quotes.
fn plain(field: &Field) -> (String, bool) {
    match field {
        Field::Word(word) => (word.clone(), false),
        Field::Number(n) => (n.to_string(), false),
        Field::Text(text) => (text.clone(), true),
        Field::Absent => ("-".into(), false),
    }
}

// How many fields a line has, which one this is, whether it stood in quotes, and the field.
const SHOWN: &str = "\
    { n = fields($0, f, quoted) }
    { for (i = 1; i <= n; i++) printf \"%d %d %d\\n%s\\n\", n, i, quoted[i], f[i] }";

fn shown(lines: &[Line]) -> Vec<u8> {
    let mut out = String::new();
    for line in lines {
        for (i, field) in line.iter().enumerate() {
            let (text, quoted) = plain(field);
            let (n, i, quoted) = (line.len(), i + 1, u8::from(quoted));
            out += &format!("{n} {i} {quoted}\n{text}\n");
        }
    }
    out.into_bytes()
}

const AWKS: [&[&str]; 5] = [
    &["awk"],
    &["mawk"],
    &["gawk"],
    &["original-awk"],
    &["busybox", "awk"],
];

#[test]
fn in_awk() {
    let [reader, places] = [0, 1].map(|n| block("awk", n));
    let own = written("shown.awk", SHOWN);
    let [reader, places, own] = [&reader, &places, &own].map(|path| path.to_str().expect("UTF-8"));
    let all = Listings::all();
    let mut tried = 0;
    for awk in AWKS {
        let Some(length) = told(&[awk, &["{ print length($0) }"]].concat(), b"b\0c\n") else {
            println!("not tried: there is no {}", awk.join(" "));
            continue;
        };
        // some take a NUL for the end of a line
        let part = all.without_nul();
        let taken = if length == b"3\n" { &all } else { &part };
        let run = |program| {
            told(
                &[awk, &["-f", reader, "-f", program]].concat(),
                &taken.printed,
            )
        };
        assert!(run(own) == Some(shown(&taken.lines)), "{awk:?}: fields");
        assert!(run(places) == Some(placed(&taken.lines)), "{awk:?}: places");
        tried += 1;
    }
    println!("{tried} awks, {} lines", all.lines.len());
}

// What the document's own program says.
fn placed(lines: &[Line]) -> Vec<u8> {
    let mut out = String::new();
    for line in lines {
        match &line[..] {
            [
                _,
                Field::Text(name),
                Field::Number(start),
                Field::Number(end),
                _,
            ] => {
                out += &format!("{} bytes for {name}\n", end - start);
            }
            [_, Field::Text(name), _, Field::Absent] => out += &format!("{name} goes nowhere\n"),
            _ => {}
        }
    }
    out.into_bytes()
}

#[test]
fn in_python() {
    let reader = block("python", 0);
    let all = Listings::all();
    if told(&["python3", "-c", ""], b"").is_none() {
        println!("not tried: there is no python3");
        return;
    }
    let run = ["python3", reader.to_str().expect("UTF-8")];
    let want = all.lines.iter().map(|line| json(line)).collect::<String>();
    assert!(
        told(&run, &all.printed) == Some(want.into_bytes()),
        "fields"
    );
}

// As Python writes it: in ASCII, with a space after each comma.
fn json(line: &[Field]) -> String {
    let each = line.iter().map(|field| match field {
        Field::Word(text) | Field::Text(text) => {
            format!("\"{}\"", text.chars().map(escaped).collect::<String>())
        }
        Field::Number(n) => n.to_string(),
        Field::Absent => "null".into(),
    });
    format!("[{}]\n", each.collect::<Vec<_>>().join(", "))
}

fn escaped(c: char) -> String {
    match c {
        '"' | '\\' => format!("\\{c}"),
        '\n' => "\\n".into(),
        '\r' => "\\r".into(),
        '\t' => "\\t".into(),
        '\u{8}' => "\\b".into(),
        '\u{c}' => "\\f".into(),
        ' '..='~' => c.into(),
        _ => {
            let units = c.encode_utf16(&mut [0; 2]).to_vec();
            units.iter().map(|unit| format!("\\u{unit:04x}")).collect()
        }
    }
}
