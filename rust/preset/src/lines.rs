//! Lines of a text: which one made a value, and what stands in it.
use crate::tree::Tree;
use crate::written;
use port::text::{SCRATCH_MIN, lines, next};
use std::cell::RefCell;
use std::collections::BTreeMap;

/// The physical line, from 1, where the joined line starts that makes value number `value` of the text's tree.
pub(crate) fn making(text: &[u8], value: usize) -> Option<usize> {
    Lines::of(text).making(value)
}

/// A joined line with what is skipped after it.
pub(crate) struct Line<'a> {
    /// Its number among the joined lines, from 0.
    pub number: usize,
    /// The physical line, from 1, where it starts.
    pub at: usize,
    pub text: &'a [u8],
}

/// The joined lines of a text, and how many values it has made before each.
///
/// The library is asked, and nothing is guessed. Its answers are kept, so that however many lines are asked for, no
/// part of the text is read twice.
pub(crate) struct Lines<'a> {
    text: &'a [u8],
    // where each joined line starts: the physical line, and its first byte
    starts: Vec<(usize, usize)>,
    made: RefCell<BTreeMap<usize, usize>>,
}

impl<'a> Lines<'a> {
    pub fn of(text: &'a [u8]) -> Lines<'a> {
        let ends = text.iter().enumerate().filter(|(_, b)| **b == b'\n');
        let firsts: Vec<usize> = [0].into_iter().chain(ends.map(|(at, _)| at + 1)).collect();
        let first = |line: usize| firsts.get(line.checked_sub(1)?).copied();
        let starts = joined(text).into_iter();
        Lines {
            text,
            starts: starts
                .filter_map(|line| Some((line, first(line)?)))
                .collect(),
            made: RefCell::default(),
        }
    }

    pub fn each(&self) -> impl Iterator<Item = Line<'a>> {
        let ends = self.starts.iter().skip(1).map(|(_, byte)| *byte);
        let ends = ends.chain([self.text.len()]);
        let both = self.starts.iter().zip(ends).enumerate();
        both.map(|(number, (&(at, from), end))| Line {
            number,
            at,
            text: &self.text[from..end],
        })
    }

    /// The line that makes a value.
    ///
    /// A text is read line by line and values are numbered as they are made: so it is the first line with which the
    /// text up to there makes more than `value` values.
    pub fn making(&self, value: usize) -> Option<usize> {
        let all: Vec<usize> = (0..self.starts.len()).collect();
        let after = all.partition_point(|&number| self.before(number) <= value);
        let own = after
            .checked_sub(1)
            .filter(|_| value < self.before(all.len()))?;
        self.starts.get(own).map(|(line, _)| *line)
    }

    /// What stands after the `=` in the line that makes a value.
    pub fn value_of(&self, value: usize) -> Option<String> {
        written::value_in(self.text, self.making(value)?)
    }

    /// How many values the text makes before joined line number `number`; all, where there is none of that number.
    pub fn before(&self, number: usize) -> usize {
        let known = self.made.borrow();
        let below = known.range(..=number).next_back().map(|(_, made)| *made);
        let above = known.range(number..).next().map(|(_, made)| *made);
        drop(known);
        if let Some(made) = below.filter(|_| below == above) {
            return made;
        }
        let end = self.starts.get(number).map(|(_, byte)| *byte);
        let text = &self.text[..end.unwrap_or(self.text.len())];
        let made = Tree::read(text).map_or(0, |tree| tree.made());
        self.made.borrow_mut().insert(number, made);
        made
    }
}

// Where the joined lines start; all of them, where the text is accepted by joining.
fn joined(text: &[u8]) -> Vec<usize> {
    let mut scratch = vec![0; SCRATCH_MIN];
    let used = lines(text, &mut scratch).used;
    let laid = scratch.get(..used).unwrap_or_default();
    let (mut out, mut at, mut line) = (Vec::new(), 0, 1);
    while let Ok(from) = u32::try_from(line) {
        let found = next(laid, at, from);
        if found.kind != 1 {
            break;
        }
        out.push(found.line);
        (at, line) = (found.next, found.next_line);
    }
    out
}

/// The text before a physical line.
pub(crate) fn before(text: &[u8], line: usize) -> &[u8] {
    let ends = text.iter().enumerate().filter(|(_, b)| **b == b'\n');
    match line {
        0 | 1 => &[],
        _ => {
            let end = ends.map(|(at, _)| at + 1).nth(line - 2);
            &text[..end.unwrap_or(text.len())]
        }
    }
}

/// What stands in a physical line, without its end.
pub(crate) fn standing(text: &[u8], line: usize) -> Option<&[u8]> {
    let found = text.split(|&b| b == b'\n').nth(line.checked_sub(1)?)?;
    Some(found.strip_suffix(b"\r").unwrap_or(found))
}

/// The line of the first byte that is not UTF-8.
pub(crate) fn broken(text: &[u8]) -> Option<usize> {
    let valid = std::str::from_utf8(text).err()?.valid_up_to();
    Some(1 + text[..valid].iter().filter(|&&b| b == b'\n').count())
}

#[cfg(test)]
mod tests {
    use super::{Lines, broken, making, standing};
    use crate::tree::Tree;

    #[test]
    fn parts_of_a_text() {
        let text = b"a\r\nb\n\nc";
        assert_eq!(standing(text, 1), Some(&b"a"[..]));
        assert_eq!(standing(text, 4), Some(&b"c"[..]));
        assert_eq!(standing(text, 5), None);
        assert_eq!(standing(text, 0), None);
        assert_eq!(broken(text), None);
        assert_eq!(broken(b"a\n\nb\xff\n"), Some(3));
    }

    #[test]
    fn joined_lines_have_their_text() {
        let text = b"# one\r\na = [\n 1, # more\n\n]\r\n\n# two\n b = \"x\ny\"\nc = 3";
        let lines = Lines::of(text);
        let each = lines.each().map(|line| (line.number, line.at, line.text));
        let want: [(usize, usize, &[u8]); 3] = [
            (0, 2, b"a = [\n 1, # more\n\n]\r\n\n# two\n"),
            (1, 8, b" b = \"x\ny\"\n"),
            (2, 10, b"c = 3"),
        ];
        assert_eq!(each.collect::<Vec<_>>(), want);
        let made = [3, 2, 0, 1, 2].map(|number| lines.before(number));
        assert_eq!(made, [4, 3, 0, 2, 3]);
        assert_eq!(Lines::of(b"# none").each().count(), 0);
        assert_eq!(Lines::of(b"# none").making(0), None);
    }

    // Each value of a text holds the number of the line that it is written in.
    #[test]
    fn a_value_is_made_by_its_line() {
        let text = b"\n# a comment\na = 3\n\n[t] # more\nb = [\n  6, # the first\n\n  6,\n]\n\
                     c.d = 11\r\n[t]\nb = 13\n[[l]]\nx = 15\n[[l]]\nx = 17\ny = [18, 18]";
        let tree = Tree::read(text).expect("a tree");
        let mut met = 0;
        for value in 0..tree.made() {
            let line = making(text, value).expect("a line");
            if let Some(want) = tree.integer(value) {
                assert_eq!(line as i128, want);
                met += 1;
            }
        }
        assert_eq!(met, 9);
        assert_eq!(making(text, tree.made()), None);
    }

    #[test]
    fn headers_and_tables_have_lines() {
        let text = b"[board]\n\n[[l]]\n\n[[l]]\n[apps]\nk.x = 1\n[apps.k]\n[apps.m]\n";
        let tree = Tree::read(text).expect("a tree");
        let line = |value: Option<usize>| making(text, value.expect("a value"));
        let items = tree.items(tree.root("l").expect("a list"));
        assert_eq!(line(tree.root("board")), Some(1));
        assert_eq!(line(items.first().copied()), Some(3));
        assert_eq!(line(items.last().copied()), Some(5));
        let apps = tree.root("apps").expect("a table");
        assert_eq!(line(tree.field(apps, "k")), Some(7));
        assert_eq!(line(tree.field(apps, "m")), Some(9));
    }
}
