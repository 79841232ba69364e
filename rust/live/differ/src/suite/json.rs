//! JSON as toml-test writes it: objects, lists and strings, and nothing else.
use std::collections::BTreeMap;

#[derive(Clone, Debug, PartialEq, Eq)]
pub enum Json {
    Text(String),
    List(Vec<Json>),
    Object(BTreeMap<String, Json>),
}

/// One value and nothing after it, or what is in its way.
pub fn read(text: &str) -> Result<Json, String> {
    let mut reader = Reader(text);
    let json = reader.value()?;
    match reader.peek() {
        None => Ok(json),
        Some(_) => Err(reader.fault("the end")),
    }
}

// What is left of the text.
struct Reader<'a>(&'a str);

impl Reader<'_> {
    // The next character that is no white space; it stays.
    fn peek(&mut self) -> Option<char> {
        self.0 = self.0.trim_start_matches([' ', '\t', '\r', '\n']);
        self.0.chars().next()
    }

    fn fault(&self, wanted: &str) -> String {
        let found: String = self.0.chars().take(20).collect();
        format!("{wanted} is wanted before {found:?}")
    }

    // Whether that is next; it is passed over then.
    fn took(&mut self, c: char) -> bool {
        let next = self.peek() == Some(c);
        if next {
            self.0 = &self.0[c.len_utf8()..];
        }
        next
    }

    fn take(&mut self, c: char) -> Result<(), String> {
        let wanted = || format!("'{c}'");
        self.took(c)
            .then_some(())
            .ok_or_else(|| self.fault(&wanted()))
    }

    fn value(&mut self) -> Result<Json, String> {
        match self.peek() {
            Some('"') => self.string().map(Json::Text),
            Some('[') => self.list().map(Json::List),
            Some('{') => self.object().map(Json::Object),
            _ => Err(self.fault("a string, a list or an object")),
        }
    }

    fn list(&mut self) -> Result<Vec<Json>, String> {
        let mut out = Vec::new();
        self.all('[', ']', |reader| {
            out.push(reader.value()?);
            Ok(())
        })?;
        Ok(out)
    }

    fn object(&mut self) -> Result<BTreeMap<String, Json>, String> {
        let mut out = BTreeMap::new();
        self.all('{', '}', |reader| {
            let key = reader.string()?;
            reader.take(':')?;
            let value = reader.value()?;
            match out.insert(key, value) {
                None => Ok(()),
                Some(_) => Err(reader.fault("no key twice")),
            }
        })?;
        Ok(out)
    }

    // Entries with commas between them.
    fn all(
        &mut self,
        open: char,
        close: char,
        mut entry: impl FnMut(&mut Self) -> Result<(), String>,
    ) -> Result<(), String> {
        self.take(open)?;
        if self.took(close) {
            return Ok(());
        }
        loop {
            entry(self)?;
            if self.took(close) {
                return Ok(());
            }
            self.take(',')?;
        }
    }

    fn string(&mut self) -> Result<String, String> {
        self.take('"')?;
        let mut out = String::new();
        loop {
            let plain = self.0.find(['"', '\\']).ok_or(self.fault("'\"'"))?;
            out.push_str(&self.0[..plain]);
            let escape = self.0[plain..].starts_with('\\');
            self.0 = &self.0[plain + 1..];
            if !escape {
                return Ok(out);
            }
            out.push(self.escaped()?);
        }
    }

    // What stands after a backslash.
    fn escaped(&mut self) -> Result<char, String> {
        let c = self.0.chars().next().ok_or(self.fault("an escape"))?;
        self.0 = &self.0[c.len_utf8()..];
        match c {
            '"' | '\\' | '/' => Ok(c),
            'b' => Ok('\u{8}'),
            'f' => Ok('\u{c}'),
            'n' => Ok('\n'),
            'r' => Ok('\r'),
            't' => Ok('\t'),
            'u' => self.character(),
            _ => Err(self.fault("an escape")),
        }
    }

    // A character by its number, or by two of them.
    fn character(&mut self) -> Result<char, String> {
        let mut units = vec![self.unit()?];
        if (0xD800..0xDC00).contains(&units[0]) && self.0.starts_with("\\u") {
            self.0 = &self.0[2..];
            units.push(self.unit()?);
        }
        let whole = String::from_utf16(&units)
            .ok()
            .and_then(|s| s.chars().next());
        whole.ok_or(self.fault("a character"))
    }

    fn unit(&mut self) -> Result<u16, String> {
        let digits = self.0.get(..4).ok_or(self.fault("four digits"))?;
        let unit = u16::from_str_radix(digits, 16).map_err(|e| e.to_string())?;
        self.0 = &self.0[4..];
        Ok(unit)
    }
}
