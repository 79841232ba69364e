//! How often texts have what a reader may get wrong that carries brackets and quotes onward from line to line.
use replay::model::text::{kept, step};

// An array of that many lines is a long one.
const LONG: usize = 200;

/// Counts of what was met in joined lines.
#[derive(Default)]
pub struct Shapes {
    /// Line ends that a backslash in a string hides.
    pub hidden: usize,
    /// Strings over three lines and more, with `#` and a bracket in them.
    pub strings: usize,
    /// Comments with a bracket and a quote in them, where an array is open.
    pub comments: usize,
    /// Joined lines of 200 physical lines and more that are whole, refused with 3, and refused with 4.
    pub long: [usize; 3],
}

// A joined line up to some byte: its physical lines, string state and brackets, and what its last string has.
#[derive(Default)]
struct Line {
    lines: usize,
    state: u8,
    opens: usize,
    closes: usize,
    ends: usize,
    hash: bool,
    bracket: bool,
}

impl Shapes {
    /// Adds those of a text, up to its first refusal.
    pub fn look(&mut self, text: &str) {
        let mut line = Line::default();
        for physical in text.lines() {
            let (kept, cut) = physical.split_at(kept(physical.as_bytes()));
            if line.lines == 0 && kept.trim().is_empty() {
                continue;
            }
            // the first has no line end before it
            let end = if line.lines == 0 { "" } else { "\n" };
            let bytes = end.bytes().chain(kept.bytes());
            bytes.for_each(|b| self.byte(&mut line, b));
            line.lines += 1;
            self.comment(&mut line, cut);
            if line.opens < line.closes {
                return self.ended(&line, 1);
            }
            if line.opens == line.closes && line.state == 0 {
                self.ended(&line, 0);
                line = Line::default();
            }
        }
        self.ended(&line, 2);
    }

    fn byte(&mut self, line: &mut Line, b: u8) {
        let crowded = line.ends > 1 && line.hash && line.bracket;
        match (line.state, b) {
            (0, b'[') => line.opens += 1,
            (0, b']') => line.closes += 1,
            (0, b'"') => (line.ends, line.hash, line.bracket) = (0, false, false),
            (0, _) => {}
            (state, b'\n') => {
                line.ends += 1;
                self.hidden += usize::from(state == 2);
            }
            (_, b'#') => line.hash = true,
            (_, b'[' | b']') => line.bracket = true,
            (1, b'"') => self.strings += usize::from(crowded),
            _ => {}
        }
        line.state = step(line.state, b);
    }

    // What is cut stands in a string too, where one is open.
    fn comment(&mut self, line: &mut Line, cut: &str) {
        line.hash |= !cut.is_empty();
        let both = cut.contains(['[', ']']) && cut.contains('"');
        let between = line.state == 0 && line.closes < line.opens;
        self.comments += usize::from(both && between);
    }

    fn ended(&mut self, line: &Line, how: usize) {
        self.long[how] += usize::from(line.lines >= LONG);
    }

    /// Whether there was one of each, long lines apart.
    pub fn every_shape(&self) -> bool {
        self.hidden > 0 && self.strings > 0 && self.comments > 0
    }

    /// Says so on standard output; `.ci/run` shows these lines.
    pub fn print(&self, what: &str) {
        let (hidden, strings, comments) = (self.hidden, self.strings, self.comments);
        let [whole, over, open] = self.long;
        println!(
            "met, {what}: {hidden} hidden line ends, {strings} strings over lines, {comments} comments in arrays; of \
             200 lines and more {whole} whole, refused 3: {over}, 4: {open}"
        );
    }
}
