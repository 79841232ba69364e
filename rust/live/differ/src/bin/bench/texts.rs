//! What is timed.
use port::text::TEXT_MAX;

pub const EXAMPLES: [&str; 3] = ["example.toml", "stage-d13x.toml", "tour-d21x.toml"];

pub fn example(name: &str) -> String {
    let path = replay::harness::vector::line::file("../presets").join(name);
    std::fs::read_to_string(path).expect(name)
}

/// The worst texts for looking keys up: what is looked for is old, or under many values.
pub fn headers() -> [(&'static str, String); 7] {
    let path = ["a"; 16].join(".");
    let (header, key) = (format!("[{path}]\n"), format!("{path} = 1\n"));
    let below = key.replacen("a.", "", 1);
    let list = |count| format!("z = [{}]\n", "1,".repeat(count));
    let first = |line: &str, count| format!("{line}[z]\n{}", list(count));
    let (one, four) = ("b=1\n".repeat(2_046), "aaab=1\n".repeat(2_046));
    [
        (
            "headers of 16 segments after 2,032 values",
            filled(&list(2_031), &header, 2_000),
        ),
        (
            "the same, the tables made first",
            filled(&first(&header, 2_030), &header, 2_000),
        ),
        (
            "keys of 16 segments after 1,151 values",
            filled(&list(1_150), &key, 850),
        ),
        (
            "the same, the tables made first",
            filled(&(first(&key, 1_150) + "[a]\n"), &below, 850),
        ),
        (
            "one old key among 2,048 values",
            filled(&format!("a.x=1\n{one}"), "[a]\n", 9_000),
        ),
        (
            "the same, longer keys",
            filled(&format!("aaaa.x=1\n{four}"), "[aaaa]\n", 9_000),
        ),
        (
            "2,048 keys in one table",
            (0..2_048).map(|i| format!("k{i:04} = 1\n")).collect(),
        ),
    ]
}

/// The worst texts for joining lines and for splitting items.
pub fn lists() -> [(&'static str, String); 2] {
    let (ones, spaced) = ("1,\n".repeat(2_047), "1,           ".repeat(2_032));
    let (open, close) = ("[".repeat(16), "]".repeat(16));
    [
        (
            "one list over many lines",
            format!("a = [\n{ones}{}]\n", "\n".repeat(4_000)),
        ),
        (
            "2,032 items, lists 16 deep",
            format!("a = {open}{spaced}{close}\n"),
        ),
    ]
}

/// `line` after `before` as often as the longest text takes it, and `most` times at most.
pub fn filled(before: &str, line: &str, most: usize) -> String {
    let count = (TEXT_MAX - before.len()) / line.len();
    before.to_string() + &line.repeat(count.min(most))
}

/// Sections as presets have them, then a comment up to the length.
pub fn preset(length: usize) -> String {
    let mut text = String::from(
        "[board]\nname = \"bench\"\nchip = \"d13x\"\n\n[image]\nproduct = \"bench\"\n",
    );
    for i in 0.. {
        let more = section(i);
        if text.len() + more.len() + 2 > length {
            break;
        }
        text.push_str(&more);
    }
    commented(text, length)
}

fn section(i: usize) -> String {
    let (offset, part) = (i * 4_096, i - i % 3);
    match i % 3 {
        0 => format!(
            "\n[[partition]]          # part {i}\nname   = \"part{part}\"\n\
             offset = 0x{offset:06x}\nsize   = 0x1000\n"
        ),
        1 => format!(
            "\n[[component]]\nkind = \"app\"\nname = \"comp{i}\"\npackage = \"package-{i}\"\n\
             partition = \"part{part};mtd\"\nfeatures = [\n    \"pan\",   # slow\n    \"tilt\",\n]\n"
        ),
        _ => format!(
            "\n[apps.profile-{i}]\nname = \"profile {i}\"\npartition = \"part{part}\"\n\
             features = \"pan tilt zoom\"\nload_address = 0x4070_0000\n"
        ),
    }
}

// A comment after it, up to the length.
fn commented(text: String, length: usize) -> String {
    let dashes = "-".repeat(length - text.len() - 2);
    format!("{text}#{dashes}\n")
}

/// One partition, two components and two applications for each KiB, so that all lists are full at 32.
pub fn growing(kib: usize) -> String {
    let each = (0..kib).map(|i| commented(unit(i), 1_024));
    each.collect()
}

fn unit(i: usize) -> String {
    let offset = i * 4_096;
    let part = format!(
        "[[partition]]\nname   = \"part{i}\"   # block {i}\noffset = 0x{offset:06x}\nsize   = 0x1000\n\n"
    );
    let both = [2 * i, 2 * i + 1];
    let comps = both.map(|n| {
        format!(
            "[[component]]\nkind = \"app\"\nname = \"comp{n}\"\npackage = \"package-{n}\"\n\
             features = [\"pan\", \"tilt\", \"zoom\"]\npartition = \"part{i};mtd\"\nwith_ext = true\n\
             load_address = 0x4070_0000\n\n"
        )
    });
    let apps = both.map(|n| {
        format!(
            "[apps.profile-{n}]\nname = \"profile {n}\"\npartition = \"part{i}\"\n\
             features = \"pan tilt zoom\"\n\n"
        )
    });
    part + &comps.concat() + &apps.concat()
}

/// The worst case for joining: every line belongs to one value.
pub fn array(length: usize) -> String {
    let mut text = String::from("a = [\n");
    while text.len() + 5 <= length {
        text.push_str("1,\n");
    }
    text.push_str("]\n");
    text
}

/// Items that are arrays around an integer, the outermost array being the first of `depth`.
pub fn nested(items: usize, depth: usize) -> String {
    let inside = depth - 1;
    let item = format!("{}0x1F{}", "[".repeat(inside), "]".repeat(inside));
    format!("[{}]", vec![item; items].join(", "))
}

pub fn integers(count: usize) -> String {
    let all: Vec<_> = (0..count).map(|i| format!("{}", i * 4_096)).collect();
    format!("[{}]", all.join(", "))
}
