//! All that the text layer says about one text.

/// A joined line: the physical line where it starts, from 1, and its text.
pub type Joined = (usize, String);
/// A refusal: its number and its place.
pub type Refusal = (u32, usize);

#[derive(Clone, Debug, PartialEq, Eq)]
pub struct Answer {
    /// The part that trimming leaves, from the first byte to before the last.
    pub trim: (usize, usize),
    /// The bytes before the comment, the text taken as one line.
    pub kept: usize,
    /// The string state after the text, and its `[` and `]` outside strings.
    pub scan: (u8, usize, usize),
    /// What is kept of each physical line, each with an LF.
    pub laid: String,
    /// The joined lines, those before a refusal if there is one.
    pub lines: Vec<Joined>,
    pub refusal: Option<Refusal>,
}

impl Answer {
    /// Where two answers part: the field with its two values.
    pub fn difference(&self, other: &Self) -> Option<String> {
        if self == other {
            return None;
        }
        let pairs = [
            ("trim", shown(&self.trim), shown(&other.trim)),
            ("kept", shown(&self.kept), shown(&other.kept)),
            ("scan", shown(&self.scan), shown(&other.scan)),
            ("laid", shown(&self.laid), shown(&other.laid)),
            ("lines", shown(&self.lines), shown(&other.lines)),
            ("refusal", shown(&self.refusal), shown(&other.refusal)),
        ];
        let (name, a, b) = pairs.into_iter().find(|(_, a, b)| a != b)?;
        Some(format!("{name}: {a} against {b}"))
    }
}

fn shown(value: &impl std::fmt::Debug) -> String {
    format!("{value:?}")
}
