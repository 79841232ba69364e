//! The flash as a drawing, and the drawing as plain text for a terminal.
//!
//! ```
//! use preset::map::{Area, Drawing};
//!
//! let boot = Area { name: "boot".into(), size: 0x1000, ..Area::default() };
//! let spare = Area { name: "spare".into(), offset: 0x3000, size: 0x1000, ..Area::default() };
//! let areas = vec![boot, spare];
//! let drawing = Drawing { title: "desk".into(), areas, ..Drawing::default() };
//! assert_eq!(drawing.terminal(), "\
//! desk
//!
//!    name          start     end        size   0                           16 KiB
//!    boot          0x000000  0x001000  4 KiB  [#########                         ]
//!    (unassigned)  0x001000  0x003000  8 KiB  [         .................        ]
//!    spare         0x003000  0x004000  4 KiB  [                          ########]
//! ");
//! ```
use std::iter::once;

/// What a map shows: the areas in the order of the preset's partitions.
#[derive(Clone, Debug, Default, PartialEq, Eq)]
pub struct Drawing {
    /// The board, its chip and its media.
    pub title: String,
    /// The product, and what is planned.
    pub subtitle: String,
    /// The partitions.
    pub areas: Vec<Area>,
    /// What is told of a preset that is not accepted.
    pub refusal: Option<String>,
}

/// A partition with what is written into it; `faulty` where the refusal names it.
#[derive(Clone, Debug, Default, PartialEq, Eq)]
pub struct Area {
    /// Its name, escaped.
    pub name: String,
    /// Where it starts on the flash.
    pub offset: u64,
    /// How many bytes it has.
    pub size: u64,
    /// What is written into it.
    pub lands: Vec<Land>,
    /// Whether the refusal names it.
    pub faulty: bool,
    /// Whether no application may lie in it.
    pub locked: bool,
}

/// A component or an application that lands in an area.
#[derive(Clone, Debug, PartialEq, Eq)]
pub struct Land {
    /// What it is.
    pub kind: LandKind,
    /// Its name, escaped.
    pub name: String,
}

/// `Chosen` is the application that the plan is for.
#[derive(Clone, Copy, Debug, PartialEq, Eq)]
pub enum LandKind {
    /// A component of the boot chain.
    Component,
    /// An application that is not chosen.
    Application,
    /// The application that the plan is for.
    Chosen,
}

// A line of a map: an area by its number, or the bytes from one place up to another that no area has.
#[derive(Clone, Copy, Debug, PartialEq, Eq)]
pub(crate) enum Row {
    Area(usize),
    Gap(u64, u64),
}

pub(crate) const UNASSIGNED: &str = "(unassigned)";
pub(crate) const LOCKED: &str = "locked: takes no application";

// How wide a terminal is, and how much of a name its table shows.
const WIDTH: usize = 80;
const NAME_MAX: usize = 20;
const LAND_MAX: usize = 40;
// Bars are never shorter, whatever the names and numbers.
const CELLS_MIN: usize = 12;

impl Area {
    /// The first byte after it.
    pub fn end(&self) -> u64 {
        self.offset.saturating_add(self.size)
    }

    // The bytes that both have, from one place up to another.
    pub(crate) fn shared(&self, other: &Area) -> Option<(u64, u64)> {
        let from = self.offset.max(other.offset);
        let to = self.end().min(other.end());
        (from < to).then_some((from, to))
    }

    // The names of one kind that land here.
    pub(crate) fn landed(&self, kind: LandKind) -> Vec<String> {
        let own = self.lands.iter().filter(|l| l.kind == kind);
        own.map(|l| clean(&l.name, LAND_MAX)).collect()
    }
}

impl Drawing {
    // Where the last area ends: how large the flash is, nobody says.
    pub(crate) fn end(&self) -> u64 {
        self.areas.iter().map(Area::end).max().unwrap_or(0)
    }

    // What lies between areas or before the first, from the lowest on.
    fn gaps(&self) -> Vec<(u64, u64)> {
        let mut taken: Vec<_> = self.areas.iter().map(|a| (a.offset, a.end())).collect();
        taken.sort_unstable();
        let (mut out, mut free) = (Vec::new(), 0);
        for (from, to) in taken {
            if from > free {
                out.push((free, from));
            }
            free = free.max(to);
        }
        out
    }

    // The areas in an order, each with the gap below it in front: every gap ends where one starts.
    pub(crate) fn rows(&self, order: &[usize]) -> Vec<Row> {
        let (mut gaps, mut out) = (self.gaps(), Vec::new());
        for &i in order {
            let below = gaps.iter().position(|gap| gap.1 == self.areas[i].offset);
            if let Some((from, to)) = below.map(|n| gaps.remove(n)) {
                out.push(Row::Gap(from, to));
            }
            out.push(Row::Area(i));
        }
        out
    }

    // Which earlier areas have bytes of this one, and which bytes.
    fn overlaps(&self, i: usize) -> impl Iterator<Item = (&Area, (u64, u64))> {
        let own = &self.areas[i];
        let earlier = self.areas[..i].iter();
        earlier.filter_map(|a| Some((a, own.shared(a)?)))
    }

    // The same in words, of more than two the first two.
    pub(crate) fn overlap_words(&self, i: usize) -> Option<String> {
        let all: Vec<_> = self.overlaps(i).collect();
        let first = all.iter().take(2).map(|(a, (from, to))| {
            let (name, size) = (clean(&a.name, NAME_MAX), size_words(to - from));
            format!("{name} by {size}")
        });
        let first: Vec<_> = first.collect();
        let more = match all.len().saturating_sub(2) {
            0 => String::new(),
            n => format!(" and {n} more"),
        };
        let named = !first.is_empty();
        named.then(|| format!("overlaps {}{more}", first.join(", ")))
    }

    /// The map in plain text, each line with its end; bars show where an area lies in the flash.
    pub fn terminal(&self) -> String {
        let order: Vec<_> = (0..self.areas.len()).collect();
        let rows = self.rows(&order);
        let columns = Columns::of(self, &rows);
        let titles = [&self.title, &self.subtitle].into_iter();
        let titles = titles.filter(|t| !t.is_empty()).map(|t| clean(t, WIDTH));
        let mut lines: Vec<_> = titles.collect();
        lines.extend((!lines.is_empty()).then(String::new));
        if rows.is_empty() {
            lines.push("   (no partitions)".into());
        } else {
            lines.push(columns.head(self.end()));
        }
        for row in rows {
            lines.push(columns.row(self, row));
            lines.extend(columns.notes(self, row));
        }
        let refusal = self.refusal.iter().flat_map(|r| r.lines());
        lines.extend(refusal.enumerate().flat_map(told));
        lines
            .iter()
            .map(|l| l.trim_end().to_string() + "\n")
            .collect()
    }
}

// The refusal at the foot: a blank line first, then its lines with the mark of faulty rows.
fn told((n, line): (usize, &str)) -> Vec<String> {
    let words = line.split_whitespace().map(|w| clean(w, usize::MAX));
    let filled = filled(words, WIDTH - 3).into_iter();
    let marked = filled.map(|l| format!("!! {l}"));
    let blank = (n == 0).then(String::new);
    blank.into_iter().chain(marked).collect()
}

// How wide the parts of a row are.
struct Columns {
    name: usize,
    digits: usize,
    size: usize,
    cells: usize,
}

impl Columns {
    fn of(drawing: &Drawing, rows: &[Row]) -> Columns {
        let names = rows.iter().map(|&row| width(&name_of(drawing, row)));
        let sizes = rows.iter().map(|&row| {
            let (from, to) = bounds(drawing, row);
            size_words(to - from).len()
        });
        // What stands above a column has four letters, and names may have fewer.
        let name = names.max().unwrap_or(0).max(4);
        let size = sizes.max().unwrap_or(0).max(4);
        let digits = format!("{:X}", drawing.end()).len().max(6);
        let used = 3 + name + 2 * (4 + digits) + 2 + size + 4;
        Columns {
            name,
            digits,
            size,
            cells: WIDTH.saturating_sub(used).max(CELLS_MIN),
        }
    }

    // What stands above the columns; above the bars, what they are a scale of.
    fn head(&self, end: u64) -> String {
        let (digits, end) = (self.digits + 2, size_words(end));
        let [name, start, stop, size] = ["name", "start", "end", "size"];
        let (w, s, cells) = (self.name, self.size, self.cells);
        let left = format!("   {name:w$}  {start:digits$}  {stop:digits$}  {size:>s$}");
        format!("{left}   0{end:>0$}", cells - 1)
    }

    fn row(&self, drawing: &Drawing, row: Row) -> String {
        let (from, to) = bounds(drawing, row);
        let mark = match row {
            Row::Area(i) if drawing.areas[i].faulty => "!!",
            _ => "  ",
        };
        let name = name_of(drawing, row);
        let blanks = " ".repeat(self.name.saturating_sub(width(&name)));
        let (size, bar) = (size_words(to - from), self.bar(drawing, row));
        let (d, s) = (self.digits, self.size);
        format!("{mark} {name}{blanks}  0x{from:0d$X}  0x{to:0d$X}  {size:>s$}  [{bar}]")
    }

    // `#` an area, `L` a locked one, `!` the faulty one, `X` what an earlier one has too, `|` one of size 0, `.` a gap.
    fn bar(&self, drawing: &Drawing, row: Row) -> String {
        let (end, mut cells) = (drawing.end(), vec![' '; self.cells]);
        let mut paint = |(from, to), c| {
            let (a, b) = span(from, to, end, self.cells);
            cells[a..b].fill(c);
        };
        let whole = bounds(drawing, row);
        match row {
            Row::Gap(..) => paint(whole, '.'),
            Row::Area(i) => {
                let area = &drawing.areas[i];
                let own = if area.faulty {
                    '!'
                } else if area.size == 0 {
                    '|'
                } else if area.locked {
                    'L'
                } else {
                    '#'
                };
                paint(whole, own);
                drawing.overlaps(i).for_each(|(_, both)| paint(both, 'X'));
            }
        }
        cells.into_iter().collect()
    }

    // The lines below an area's: whether it is locked, what it shares with earlier ones, and what lands in it.
    fn notes(&self, drawing: &Drawing, row: Row) -> Vec<String> {
        let Row::Area(i) = row else {
            return Vec::new();
        };
        let indent = 5 + self.name;
        let room = WIDTH.saturating_sub(indent);
        let area = &drawing.areas[i];
        let lock = area.locked.then(|| LOCKED.into()).into_iter();
        let overlap = drawing.overlap_words(i);
        let said = lock.chain(overlap);
        let said = said.map(|o: String| o.split(' ').map(String::from).collect());
        let notes = said.chain(lands(area));
        let lines = notes.flat_map(|words: Vec<String>| filled(words.into_iter(), room));
        lines.map(|l| " ".repeat(indent) + &l).collect()
    }
}

// A line for each kind that lands in an area, as pieces that stay whole.
fn lands(area: &Area) -> Vec<Vec<String>> {
    let kinds = [
        (LandKind::Component, "component"),
        (LandKind::Chosen, "chosen application"),
        (LandKind::Application, "application"),
    ];
    let each = kinds.into_iter().filter_map(|(kind, word)| {
        let names = area.landed(kind);
        let (last, others) = names.split_last()?;
        let plural = if others.is_empty() { "" } else { "s" };
        let head = once(format!("{word}{plural}:"));
        let others = others.iter().map(|n| format!("{n},"));
        Some(head.chain(others).chain(once(last.clone())).collect())
    });
    each.collect()
}

// Pieces in lines, a blank between two of them; one that is wider has a line of its own.
pub(crate) fn filled(pieces: impl Iterator<Item = String>, room: usize) -> Vec<String> {
    let mut lines: Vec<String> = Vec::new();
    for piece in pieces {
        match lines.last_mut() {
            Some(line) if width(line) + 1 + width(&piece) <= room => {
                line.push(' ');
                line.push_str(&piece);
            }
            _ => lines.push(piece),
        }
    }
    lines
}

// From where up to where a row goes.
pub(crate) fn bounds(drawing: &Drawing, row: Row) -> (u64, u64) {
    match row {
        Row::Area(i) => (drawing.areas[i].offset, drawing.areas[i].end()),
        Row::Gap(from, to) => (from, to),
    }
}

pub(crate) fn name_of(drawing: &Drawing, row: Row) -> String {
    match row {
        Row::Area(i) => clean(&drawing.areas[i].name, NAME_MAX),
        Row::Gap(..) => UNASSIGNED.into(),
    }
}

// The cells of a stretch of the flash, at least one; neighbours meet in the same place.
fn span(from: u64, to: u64, end: u64, cells: usize) -> (usize, usize) {
    let last = cells.saturating_sub(1);
    let first = scaled(from, end, cells).min(last);
    (first, scaled(to, end, cells).clamp(first + 1, cells.max(1)))
}

// A place of the flash among the cells, rounded; wide enough for all products.
fn scaled(at: u64, end: u64, cells: usize) -> usize {
    let (at, end, cells) = (u128::from(at), u128::from(end.max(1)), cells as u128);
    usize::try_from((at * cells + end / 2) / end).unwrap_or(usize::MAX)
}

/// A size as people write it, exactly: in the largest unit of which it is whole quarters.
pub fn size_words(size: u64) -> String {
    let units = [(30, "GiB"), (20, "MiB"), (10, "KiB")];
    let fits = |(shift, _): &(u32, _)| size >> shift > 0 && size.trailing_zeros() + 2 >= *shift;
    let Some((shift, unit)) = units.into_iter().find(fits) else {
        return format!("{size} B");
    };
    let quarters = ["", ".25", ".5", ".75"][(size >> (shift - 2)) as usize % 4];
    format!("{}{quarters} {unit}", size >> shift)
}

// A name from a preset, fit to be shown: nothing that moves the cursor or turns text around is
// left, an empty one is seen, and a long one is cut.
pub(crate) fn clean(name: &str, room: usize) -> String {
    if name.is_empty() {
        return "\"\"".into();
    }
    let (mut out, mut used, mut kept) = (String::new(), 0, 0);
    for c in name.chars() {
        let shown = shown(c);
        used += width(&shown);
        if used > room {
            out.truncate(kept);
            return out + "...";
        }
        out.push_str(&shown);
        // Three dots would still fit after this much.
        if used + 3 <= room {
            kept = out.len();
        }
    }
    out
}

fn shown(c: char) -> String {
    match c {
        // A name may come with escapes already.
        '\'' | '"' | '\\' => c.into(),
        _ => c.escape_debug().collect(),
    }
}

// Columns on a terminal; what joins the character before it was escaped.
pub(crate) fn width(s: &str) -> usize {
    let wide = |c: char| {
        matches!(u32::from(c),
            0x1100..=0x115F | 0x2E80..=0xA4CF | 0xAC00..=0xD7A3 | 0xF900..=0xFAFF
            | 0xFE30..=0xFE6F | 0xFF00..=0xFF60 | 0xFFE0..=0xFFE6 | 0x1F300..=0x1FAFF
            | 0x20000..=0x3FFFD)
    };
    s.chars().map(|c| 1 + usize::from(wide(c))).sum()
}
