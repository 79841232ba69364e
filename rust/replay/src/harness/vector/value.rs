//! The form of the recorded answers: one text and its answers to a line.
//!
//! `TEXT int ok INTEGER string ok USED DECODED key ok COUNT SEGMENT.. value ok VALUE`, where each
//! `ok` and what follows may be `refused NUMBER`, and for the string also its place. An array is
//! `[`, its items and `]`. Texts stand in quotes.
use super::line::{Reader, quote};
use crate::model::answer::value::{Answer, Bytes, Value};

/// One line of the file, without its end.
pub fn write(text: &str, a: &Answer) -> String {
    let int = told(&a.int, i64::to_string);
    let string = match &a.string {
        Ok((used, decoded)) => format!("ok {used} {}", quoted(decoded)),
        Err((number, at)) => format!("refused {number} {at}"),
    };
    let key = told(&a.key, |all| {
        let segments = all.iter().map(|s| format!(" {}", quoted(s)));
        format!("{}{}", all.len(), segments.collect::<String>())
    });
    let value = told(&a.value, shown);
    let text = quote(text);
    format!("{text} int {int} string {string} key {key} value {value}")
}

fn told<T>(answer: &Result<T, u32>, show: impl Fn(&T) -> String) -> String {
    match answer {
        Ok(good) => format!("ok {}", show(good)),
        Err(number) => format!("refused {number}"),
    }
}

fn quoted(s: &Bytes) -> String {
    quote(std::str::from_utf8(&s.0).expect("the original decodes to UTF-8"))
}

fn shown(v: &Value) -> String {
    match v {
        Value::Str(s) => quoted(s),
        Value::Int(i) => i.to_string(),
        Value::Bool(b) => b.to_string(),
        Value::Array(items) => {
            let items = items.iter().map(|v| shown(v) + " ");
            format!("[ {}]", items.collect::<String>())
        }
    }
}

/// The text and the answers of one line.
pub fn read(line: &str) -> Result<(String, Answer), String> {
    let mut r = Reader(line);
    let text = r.quoted()?;
    r.named("int")?;
    let int = r.answer(Reader::number)?;
    r.named("string")?;
    let string = match r.answer(|r| Ok((r.number()?, Bytes(r.quoted()?.into()))))? {
        Ok(decoded) => Ok(decoded),
        Err(number) => Err((number, r.number()?)),
    };
    r.named("key")?;
    let key = r.answer(|r| {
        let count: usize = r.number()?;
        (0..count).map(|_| Ok(Bytes(r.quoted()?.into()))).collect()
    })?;
    r.named("value")?;
    let value = r.answer(Reader::value)?;
    let answer = Answer {
        int,
        string,
        key,
        value,
    };
    Ok((text, answer))
}

impl Reader<'_> {
    fn answer<T>(
        &mut self,
        read: impl Fn(&mut Self) -> Result<T, String>,
    ) -> Result<Result<T, u32>, String> {
        match self.word() {
            "ok" => Ok(Ok(read(self)?)),
            "refused" => Ok(Err(self.number()?)),
            word => Err(format!("{word:?} stands in place of ok or refused")),
        }
    }

    fn value(&mut self) -> Result<Value, String> {
        if self.0.starts_with('"') {
            return Ok(Value::Str(Bytes(self.quoted()?.into())));
        }
        match self.word() {
            "true" => Ok(Value::Bool(true)),
            "false" => Ok(Value::Bool(false)),
            "[" => self.items().map(Value::Array),
            word => match word.parse() {
                Ok(int) => Ok(Value::Int(int)),
                Err(_) => Err(format!("{word:?} is no value")),
            },
        }
    }

    fn items(&mut self) -> Result<Vec<Value>, String> {
        let mut out = Vec::new();
        while !self.0.starts_with(']') {
            out.push(self.value()?);
        }
        self.word();
        Ok(out)
    }
}
