//! Whether a value passes a schema, by the keywords that ours has; any other is a fault of the schema.
use crate::json::Json;

/// Whether a value passes all of a schema, in which references start from the root.
pub fn passes(root: &Json, schema: &Json, value: &Json) -> bool {
    let mut keywords = schema.pairs().iter();
    keywords.all(|(keyword, asked)| match keyword.as_str() {
        "$schema" | "title" | "description" | "default" | "definitions" => true,
        "$ref" | "allOf" | "anyOf" => whole(root, keyword, asked, value),
        "properties" | "additionalProperties" => keyed(root, schema, keyword, value),
        "items" => {
            let mut items = value.items().iter();
            items.all(|item| passes(root, asked, item))
        }
        "required" => {
            let has = |key: &Json| matches!(key, Json::Text(key) if value.get(key).is_some());
            !matches!(value, Json::Object(_)) || asked.items().iter().all(has)
        }
        "enum" => asked.items().contains(value),
        "type" => match asked {
            Json::List(names) => names.iter().any(|name| named(name, value)),
            name => named(name, value),
        },
        _ => number(asked).is_some_and(|most| measured(keyword, most, value)),
    })
}

// Schemas that the whole value is held against.
fn whole(root: &Json, keyword: &str, asked: &Json, value: &Json) -> bool {
    let mut each = asked.items().iter();
    match (keyword, asked) {
        ("allOf", _) => each.all(|schema| passes(root, schema, value)),
        ("anyOf", _) => each.any(|schema| passes(root, schema, value)),
        (_, Json::Text(path)) => {
            let name = path.strip_prefix("#/definitions/").expect("a definition");
            let found = root.get("definitions").and_then(|all| all.get(name));
            passes(root, found.expect("a definition"), value)
        }
        _ => panic!("{asked:?} is no reference"),
    }
}

// Schemas of an object's values, by their keys; a key without one is told by `additionalProperties`.
fn keyed(root: &Json, schema: &Json, keyword: &str, value: &Json) -> bool {
    let known = |key: &str| schema.get("properties")?.get(key);
    let mut pairs = value.pairs().iter();
    pairs.all(|(key, value)| match (known(key), schema.get(keyword)) {
        (Some(own), _) if keyword == "properties" => passes(root, own, value),
        (None, Some(Json::Bool(taken))) if keyword != "properties" => *taken,
        (None, Some(other)) if keyword != "properties" => passes(root, other, value),
        _ => true,
    })
}

fn named(name: &Json, value: &Json) -> bool {
    let own = match value {
        Json::Bool(_) => "boolean",
        Json::Integer(_) => "integer",
        Json::Text(_) => "string",
        Json::List(_) => "array",
        Json::Object(_) => "object",
    };
    matches!(name, Json::Text(name) if name == own)
}

fn number(value: &Json) -> Option<i64> {
    match value {
        Json::Integer(n) => Some(*n),
        _ => None,
    }
}

// What is of another kind than a keyword measures passes it.
fn measured(keyword: &str, most: i64, value: &Json) -> bool {
    match (keyword, value) {
        ("minimum", Json::Integer(n)) => *n >= most,
        ("maximum", Json::Integer(n)) => *n <= most,
        ("multipleOf", Json::Integer(n)) => n % most == 0,
        ("maxLength", Json::Text(text)) => text.chars().count() as i64 <= most,
        ("maxItems", Json::List(items)) => items.len() as i64 <= most,
        ("maxProperties", Json::Object(pairs)) => pairs.len() as i64 <= most,
        ("minimum" | "maximum" | "multipleOf" | "maxLength" | "maxItems" | "maxProperties", _) => {
            true
        }
        _ => panic!("{keyword} is no keyword of ours"),
    }
}
