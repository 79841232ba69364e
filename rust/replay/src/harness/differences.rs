//! The tables of docs/DIFFERENCES.md, and a refusal as it is written there.
use port::document::Outcome;

const PAPER: &str = include_str!("../../../../docs/DIFFERENCES.md");

// Every table begins with one of two lines, and this one after it.
const OF_TOML: &str = "| text | here | TOML 1.0.0 | why |";
const OF_ORIGINAL: &str = "| asked | here | the original | why |";
const RULE: &str = "|---|---|---|---|";

/// What is asked, what is answered here, and what TOML or the original say; under which heading.
#[derive(Clone, Copy)]
pub struct Row {
    pub line: usize,
    pub heading: &'static str,
    pub of_toml: bool,
    pub asked: &'static str,
    pub here: &'static str,
    pub theirs: &'static str,
}

/// Every row. A line of a table that is no row, or a row of no table, is a fault of the document.
pub fn rows() -> Vec<Row> {
    let headed = [OF_TOML, OF_ORIGINAL];
    cells(PAPER, &headed, RULE).into_iter().map(row).collect()
}

/// How many of the tables are of TOML.
pub fn toml_tables() -> usize {
    PAPER.lines().filter(|l| *l == OF_TOML).count()
}

fn row(c: Cells) -> Row {
    let line = c.line;
    let [asked, here, theirs, why] = c.each[..] else {
        panic!("line {line}: no row of four cells: {:?}", c.each);
    };
    let short = [asked, theirs, why].iter().any(|cell| cell.is_empty());
    assert!(!short, "line {line}: an empty cell");
    let here = code(here).unwrap_or_else(|| panic!("line {line}: no answer in code: {here}"));
    Row {
        line,
        heading: c.heading,
        of_toml: c.head == OF_TOML,
        asked,
        here,
        theirs,
    }
}

/// A row of a document: where it stands, the last heading before it, and its table's first line.
pub struct Cells {
    pub line: usize,
    pub heading: &'static str,
    pub head: &'static str,
    pub each: Vec<&'static str>,
}

/// The rows of all tables of a document, each of which begins with one of these lines and `rule` after it.
pub fn cells(paper: &'static str, heads: &[&str], rule: &str) -> Vec<Cells> {
    let (mut out, mut head, mut last, mut heading) = (Vec::new(), None, "", "");
    for (line, l) in paper.lines().enumerate().map(|(i, l)| (i + 1, l)) {
        let in_table = l.starts_with('|');
        match head {
            _ if !in_table => {}
            None => assert!(heads.contains(&l), "line {line}: no table begins so"),
            Some(h) if last == h => assert_eq!(l, rule, "line {line}"),
            Some(head) => out.push(Cells {
                line,
                heading,
                head,
                each: split(l),
            }),
        }
        if let Some(words) = l.strip_prefix('#') {
            heading = words.trim_start_matches('#').trim_start();
        }
        head = in_table.then_some(head.unwrap_or(l));
        last = l;
    }
    out
}

fn split(l: &str) -> Vec<&str> {
    let inner = l.strip_prefix("| ").and_then(|l| l.strip_suffix(" |"));
    inner.map_or(Vec::new(), |l| l.split(" | ").collect())
}

/// What stands between two backticks, where that is the whole cell.
pub fn code(cell: &str) -> Option<&str> {
    let inner = cell.strip_prefix('`')?.strip_suffix('`')?;
    (!inner.contains('`')).then_some(inner)
}

/// A refusal with where it is told; nothing of that for 1, 2 and 17.
pub fn refusal(o: Outcome) -> String {
    match (o.number, o.section, o.place) {
        (number @ (1 | 2 | 17), 0, 0) => format!("refused {number}"),
        (number, 0, line) => format!("refused {number} at line {line}"),
        (number, section, place) => format!("refused {number} in section {section} at {place}"),
    }
}
