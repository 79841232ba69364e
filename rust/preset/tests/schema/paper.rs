//! The schema, made from the tables of docs/FORMAT.md: each field is said there, and nowhere else.
use crate::json::Json;

const PAPER: &str = include_str!("../../../../docs/FORMAT.md");

/// A row of a table of fields.
pub struct Field {
    pub key: String,
    pub kind: String,
    pub default: String,
    pub what: String,
}

// The cells of each row of the first table after a line that begins so.
fn rows(line: &str) -> Vec<Vec<&'static str>> {
    let begun = PAPER.lines().skip_while(|own| !own.starts_with(line));
    let table = begun.skip_while(|line| !line.starts_with("|---")).skip(1);
    let rows = table.take_while(|line| line.starts_with('|'));
    let cells = |row: &'static str| row.trim_matches('|').split('|').map(str::trim).collect();
    rows.map(cells).collect()
}

/// A section's fields, by its heading.
pub fn fields(heading: &str) -> Vec<Field> {
    let rows = rows(&format!("### `{heading}`")).into_iter();
    let field = |row: Vec<&str>| match row[..] {
        [key, kind, default, what] => Field {
            key: key.trim_matches('`').into(),
            kind: kind.into(),
            default: plain(default),
            what: plain(what),
        },
        _ => panic!("{row:?} is no row of a field"),
    };
    rows.map(field).collect()
}

// A cell without its links: `[31]` is a refusal, any other link its words.
fn plain(cell: &str) -> String {
    let mut pieces = cell.split('[');
    let mut out = pieces.next().unwrap_or_default().to_owned();
    for (words, rest) in pieces.filter_map(|piece| piece.split_once(']')) {
        out += &match words.parse::<u32>() {
            Ok(number) => format!("refusal {number}"),
            Err(_) => words.into(),
        };
        out += match rest.strip_prefix('(') {
            Some(link) => link.split_once(')').map_or("", |(_, after)| after),
            None => rest,
        };
    }
    out
}

// The most of what the table of limits begins a row with.
fn most(what: &str) -> Json {
    let mut rows = rows("## Limits").into_iter();
    let row = rows.find(|row| row[0].starts_with(what));
    let most = row.expect("a limit")[1].replace(',', "");
    Json::Integer(most.parse().expect("a number"))
}

// The number after some words, as in `a multiple of 512`.
fn after(what: &str, words: &str) -> Option<Json> {
    let (_, rest) = what.split_once(words)?;
    let digits = rest.split(|c: char| !c.is_ascii_digit()).next()?;
    Some(Json::Integer(digits.parse().ok()?))
}

fn text(words: &str) -> Json {
    Json::Text(words.into())
}

fn names<'a>(words: impl IntoIterator<Item = &'a str>) -> Json {
    Json::List(words.into_iter().map(text).collect())
}

// The words between backticks.
fn quoted(cell: &str) -> Vec<&str> {
    cell.split('`').skip(1).step_by(2).collect()
}

fn sentence(words: &str) -> String {
    let mut letters = words.chars();
    let first = letters.next().map(|c| c.to_ascii_uppercase());
    first.into_iter().chain(letters).chain(['.']).collect()
}

impl Field {
    fn schema(&self) -> Json {
        let mut out = Json::object([("description", Json::Text(self.description()))]);
        out = out.with(self.sort());
        let limits = [("maxLength", "at most "), ("multipleOf", "a multiple of ")];
        let limits = limits.map(|(keyword, words)| Some((keyword, after(&self.what, words)?)));
        let default = [self.default().map(|value| ("default", value))];
        for pair in limits.into_iter().chain(default).flatten() {
            out = out.with(Json::object([pair]));
        }
        out
    }

    fn description(&self) -> String {
        let mut out = sentence(&self.what);
        if after(&self.what, "at most ").is_some() {
            out += " Editors count characters instead.";
        }
        let said = self.default().is_some() || matches!(&*self.default, "none" | "needed");
        if said {
            out
        } else {
            format!("{out} Default: {}.", self.default)
        }
    }

    // The words after a kind are all that there are.
    fn sort(&self) -> Json {
        let (kind, words) = self.kind.split_once(':').unwrap_or((&self.kind, ""));
        let of = |name: &str| Json::object([("type", text(name))]);
        match (kind, &quoted(words)[..]) {
            ("text", []) => of("string"),
            ("text" | "word", words) => {
                let words = names(words.iter().copied());
                of("string").with(Json::object([("enum", words)]))
            }
            ("number", _) => of("integer").with(Json::object([
                ("minimum", Json::Integer(0)),
                ("maximum", most("an integer")),
            ])),
            ("flag", _) => of("boolean"),
            ("features", _) => Json::object([
                ("type", names(["string", "array"])),
                ("items", of("string")),
                ("maxItems", most("items of one feature list")),
            ]),
            _ => panic!("{kind} is no kind of a field"),
        }
    }

    /// A default that is the same in every preset.
    pub fn default(&self) -> Option<Json> {
        let features = self.kind == "features";
        match (&*self.default, &quoted(&self.default)[..]) {
            ("empty", _) if features => Some(Json::List(Vec::new())),
            ("empty", _) => Some(text("")),
            (whole, [word]) if whole.len() == word.len() + 2 => match word.parse() {
                Ok(flag) => Some(Json::Bool(flag)),
                Err(_) => Some(text(word)),
            },
            (number, _) => Some(Json::Integer(number.parse().ok()?)),
        }
    }
}

// A table with these fields; keys that the rules do not know are passed over.
fn table(heading: &str) -> Json {
    let fields = fields(heading);
    let needed = fields.iter().filter(|field| field.default == "needed");
    let needed: Vec<&str> = needed.map(|field| &*field.key).collect();
    let each = fields
        .iter()
        .map(|field| (field.key.clone(), field.schema()));
    let [_, what] = said(heading);
    let own = Json::object([("description", text(&what)), ("type", text("object"))]);
    let own = match needed[..] {
        [] => own,
        _ => own.with(Json::object([("required", names(needed))])),
    };
    own.with(Json::object([
        ("properties", Json::Object(each.collect())),
        ("additionalProperties", Json::Bool(true)),
    ]))
}

// What the table of the root says of a section: of what kind it is, and what one of its tables is.
fn said(heading: &str) -> [String; 2] {
    let mut rows = rows("## Tables and fields").into_iter();
    let own = format!("`{heading}`");
    let row = rows.find(|row| row[0].starts_with(&own));
    let row = row.expect("a section");
    [row[1], row[3]].map(sentence)
}

fn list(heading: &str, plural: &str) -> Json {
    let [_, what] = said(heading);
    Json::object([
        ("description", text(&what)),
        ("type", text("array")),
        ("maxItems", most(plural)),
        ("items", table(heading)),
    ])
}

fn reference(plural: &str) -> Json {
    Json::object([("$ref", text(&format!("#/definitions/{plural}")))])
}

// The plural is read where there is no singular, and else may be anything.
fn plural(singular: &str, plural: &str) -> [Json; 2] {
    let passed = format!("Read where there is no `{singular}`, else passed over.");
    let read = Json::object([(plural, reference(plural))]);
    let either = [
        Json::object([("required", names([singular]))]),
        Json::object([("properties", read)]),
    ];
    [
        Json::object([("description", text(&passed))]),
        Json::object([("anyOf", Json::List(either.into()))]),
    ]
}

const ABOUT: &str =
    "What a preset may have, for editors. It is made from docs/FORMAT.md, which has the rules.";

pub fn schema() -> Json {
    let [partitions, either_partitions] = plural("partition", "partitions");
    let [components, either_components] = plural("component", "components");
    let [kind, _] = said("[apps.KEY]");
    let apps = Json::object([
        ("description", text(&kind)),
        ("type", text("object")),
        ("maxProperties", most("applications")),
        ("additionalProperties", table("[apps.KEY]")),
    ]);
    let root = Json::object([
        ("board", table("[board]")),
        ("image", table("[image]")),
        ("partition", reference("partitions")),
        ("partitions", partitions),
        ("component", reference("components")),
        ("components", components),
        ("apps", apps),
    ]);
    let lists = Json::object([
        ("partitions", list("[[partition]]", "partitions")),
        ("components", list("[[component]]", "components")),
    ]);
    Json::object([
        ("$schema", text("http://json-schema.org/draft-07/schema#")),
        ("title", text("Board preset")),
        ("description", text(ABOUT)),
        ("type", text("object")),
        ("properties", root),
        ("additionalProperties", Json::Bool(true)),
        (
            "allOf",
            Json::List([either_partitions, either_components].into()),
        ),
        ("definitions", lists),
    ])
}
