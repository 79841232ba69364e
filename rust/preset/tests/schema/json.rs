//! JSON: the tree of a text as such, and how it is written.
use port::document::{self, Table, Value};
use port::value::{STORE_MIN, TREE_MIN};

#[derive(Clone, Debug, PartialEq, Eq)]
pub enum Json {
    Bool(bool),
    Integer(i64),
    Text(String),
    List(Vec<Json>),
    /// In the order of writing.
    Object(Vec<(String, Json)>),
}

impl Json {
    pub fn object<const N: usize>(pairs: [(&str, Json); N]) -> Json {
        Json::Object(pairs.map(|(key, value)| (key.into(), value)).into())
    }

    /// An object with more keys after its own.
    pub fn with(self, more: Json) -> Json {
        match (self, more) {
            (Json::Object(own), Json::Object(more)) => Json::Object([own, more].concat()),
            (own, _) => own,
        }
    }

    pub fn get(&self, key: &str) -> Option<&Json> {
        let mut pairs = self.pairs().iter();
        pairs.find(|(own, _)| own == key).map(|(_, value)| value)
    }

    pub fn pairs(&self) -> &[(String, Json)] {
        match self {
            Json::Object(pairs) => pairs,
            _ => &[],
        }
    }

    pub fn items(&self) -> &[Json] {
        match self {
            Json::List(items) => items,
            _ => &[],
        }
    }

    /// A line for each key and for each item that is an object.
    pub fn written(&self) -> String {
        self.at("")
    }

    fn at(&self, margin: &str) -> String {
        let inner = format!("{margin}  ");
        match self {
            Json::Bool(is) => is.to_string(),
            Json::Integer(n) => n.to_string(),
            Json::Text(text) => quoted(text),
            Json::List(items) if items.iter().all(|item| item.pairs().is_empty()) => {
                let items: Vec<_> = items.iter().map(|item| item.at(&inner)).collect();
                format!("[{}]", items.join(", "))
            }
            Json::List(items) => {
                let items = items.iter().map(|item| item.at(&inner)).collect();
                lines(['[', ']'], items, margin)
            }
            Json::Object(pairs) => {
                let pair = |(key, value): &(String, Json)| quoted(key) + ": " + &value.at(&inner);
                lines(['{', '}'], pairs.iter().map(pair).collect(), margin)
            }
        }
    }
}

fn lines([open, close]: [char; 2], items: Vec<String>, margin: &str) -> String {
    if items.is_empty() {
        return format!("{open}{close}");
    }
    let between = format!(",\n{margin}  ");
    let items = items.join(&between);
    format!("{open}\n{margin}  {items}\n{margin}{close}")
}

fn quoted(text: &str) -> String {
    let each = text.chars().map(|c| match c {
        '"' | '\\' => format!("\\{c}"),
        '\0'..='\x1f' => format!("\\u{:04x}", c as u32),
        _ => c.to_string(),
    });
    format!("\"{}\"", each.collect::<String>())
}

/// The tree of a text that has one.
pub fn tree(text: &[u8]) -> Option<Json> {
    let (mut store, mut tree) = (vec![0; STORE_MIN], vec![0; TREE_MIN]);
    let got = document::read(text, &mut store, &mut tree);
    let table = || document::rebuild(&tree, &store, got.made as usize);
    (got.number == 0).then(|| of_table(&table().expect("a tree")))
}

// The text was UTF-8, or it would have no tree.
fn of_bytes(bytes: &[u8]) -> String {
    String::from_utf8(bytes.to_vec()).expect("a text")
}

fn of_table(table: &Table) -> Json {
    let pairs = table.iter().map(|(key, value)| (of_bytes(key), of(value)));
    Json::Object(pairs.collect())
}

fn of(value: &Value) -> Json {
    match value {
        Value::Str(bytes) => Json::Text(of_bytes(bytes)),
        Value::Int(n) => Json::Integer(*n),
        Value::Bool(is) => Json::Bool(*is),
        Value::Array(items) => Json::List(items.iter().map(of).collect()),
        Value::Table(table) => of_table(table),
    }
}
