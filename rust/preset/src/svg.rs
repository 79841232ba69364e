//! The drawing as a self-contained SVG: the flash to scale on the left, and on the right a card
//! for each stretch of it, tied to its place by a band.
use crate::map::{
    Area, Drawing, LOCKED, LandKind, Row, bounds, clean, filled, name_of, size_words, width,
};
use std::collections::BTreeMap;
use std::iter::once;

// Lengths are in pixels of the drawing's own scale.
const WIDTH: f64 = 860.0;
const MARGIN: f64 = 28.0;
const BAR: f64 = 84.0;
const CARD: f64 = 176.0;
const CARD_WIDTH: f64 = WIDTH - MARGIN - CARD;
const BETWEEN: f64 = 8.0;
const INSET: f64 = 16.0;
// The bar is never lower, and no stretch of it thinner.
const BAR_LEAST: f64 = 260.0;
const THIN: f64 = 3.0;
const CHIP: f64 = 20.0;
const LINE: f64 = 26.0;
const NOTE: f64 = 20.0;
// A column of the even font that chips and places are set in, at 12 pixels.
const COLUMN: f64 = 7.3;

const INK: &str = "#1b2430";
const PALE: &str = "#5a6675";
const RED: &str = "#b3261e";
const HUES: [&str; 6] = [
    "#4a7fb0", "#4f9a86", "#b98a3e", "#8470b8", "#b06a7c", "#6d9150",
];
// Where the hues end they come again with white marks on them: slanted both ways, lying, standing, and checks. Some of
// each is seen in a stretch of the least height and at the edge of a card.
const MARKS: [&str; 5] = [
    r##"d="M-2 2 L2 -2 M0 8 L8 0 M6 10 L10 6" stroke="#ffffff" stroke-width="2""##,
    r##"d="M-2 6 L2 10 M0 0 L8 8 M6 -2 L10 2" stroke="#ffffff" stroke-width="2""##,
    r##"d="M0 2 L8 2 M0 6 L8 6" stroke="#ffffff" stroke-width="1.5""##,
    r##"d="M2 0 L2 8 M6 0 L6 8" stroke="#ffffff" stroke-width="1.5""##,
    r##"d="M0 0 L4 0 L4 8 L8 8 L8 4 L0 4 Z" fill="#ffffff""##,
];
const SANS: &str = "system-ui, -apple-system, Segoe UI, Roboto, Helvetica, Arial, sans-serif";
const EVEN: &str = "ui-monospace, SFMono-Regular, Menlo, Consolas, DejaVu Sans Mono, monospace";

// The look of what is unassigned.
const HATCHED: &str = r##"<defs>
<pattern id="preset-gap" width="8" height="8" patternUnits="userSpaceOnUse" patternTransform="rotate(45)">
<rect width="8" height="8" fill="#f1f3f6"/>
<line x1="0" y1="0" x2="0" y2="8" stroke="#b4bcc7" stroke-width="3"/>
</pattern>
</defs>"##;

// What is laid over a locked partition: a dark lattice, since no look of its own is dark.
const LATTICE: &str = r##"<defs>
<pattern id="preset-lock" width="8" height="8" patternUnits="userSpaceOnUse">
<path d="M-2 2 L2 -2 M0 8 L8 0 M6 10 L10 6 M-2 6 L2 10 M0 0 L8 8 M6 -2 L10 2" stroke="#1b2430"/>
</pattern>
</defs>"##;
const BARRED: &str = r#"rx="2" fill="url(#preset-lock)""#;

// A padlock, 10 wide and 13 high, from its upper left corner on.
const PADLOCK: &str = r##"<path d="M2.5 6 V3.5 a2.5 2.5 0 0 1 5 0 V6" fill="none" stroke="#1b2430" stroke-width="1.6"/>
<path d="M0 6 H10 V13 H0 Z" fill="#1b2430"/>"##;

// The looks of partitions, as many as there may be and more.
const LOOKS: usize = HUES.len() * (1 + MARKS.len());

fn hue(look: usize) -> &'static str {
    HUES[look % HUES.len()]
}

fn marks(look: usize) -> Option<&'static str> {
    let again = (look % LOOKS) / HUES.len();
    again.checked_sub(1).map(|n| MARKS[n])
}

// What fills an area of that number: its hue, or a pattern.
fn fill(look: usize) -> String {
    match marks(look) {
        None => hue(look).into(),
        Some(_) => format!("url(#preset-look-{})", look % LOOKS),
    }
}

fn pattern(look: usize) -> Option<String> {
    let (marks, hue) = (marks(look)?, hue(look));
    let size = r#"width="8" height="8""#;
    Some(format!(
        "<pattern id=\"preset-look-{look}\" {size} patternUnits=\"userSpaceOnUse\">\n\
         <rect {size} fill=\"{hue}\"/>\n<path {marks}/>\n</pattern>"
    ))
}

// The chips in the order in which they stand on a card.
const KINDS: [LandKind; 3] = [LandKind::Component, LandKind::Chosen, LandKind::Application];

impl Drawing {
    /// The map as an SVG document; it needs no other file and runs nothing.
    pub fn svg(&self) -> String {
        let page = Page::of(self);
        let mut sheet = Sheet(String::new());
        page.open(&mut sheet);
        page.heading(&mut sheet);
        page.cards.iter().for_each(|c| page.band(&mut sheet, c));
        page.frame(&mut sheet);
        page.cards.iter().for_each(|c| page.stretch(&mut sheet, c));
        page.cards.iter().for_each(|c| page.card(&mut sheet, c));
        page.foot(&mut sheet);
        sheet.line("</svg>");
        sheet.0
    }
}

// What is written so far.
struct Sheet(String);

impl Sheet {
    fn line(&mut self, line: &str) {
        self.0.push_str(line);
        self.0.push('\n');
    }

    fn rect(&mut self, [x, y, width, height]: [f64; 4], look: &str) {
        let place = format!(r#"x="{x:.1}" y="{y:.1}" width="{width:.1}" height="{height:.1}""#);
        self.line(&format!("<rect {place} {look}/>"));
    }

    fn padlock(&mut self, (x, y): (f64, f64)) {
        self.line(&format!(r#"<g transform="translate({x:.1} {y:.1})">"#));
        self.line(PADLOCK);
        self.line("</g>");
    }

    fn text(&mut self, (x, y): (f64, f64), look: &str, words: &str) {
        let (place, words) = (format!(r#"x="{x:.1}" y="{y:.1}""#), escaped(words));
        self.line(&format!("<text {place} {look}>{words}</text>"));
    }
}

// A stretch of the flash with the place of its card.
struct Card {
    row: Row,
    name: String,
    from: u64,
    to: u64,
    faulty: bool,
    locked: bool,
    hue: &'static str,
    fill: String,
    note: Option<String>,
    chips: Vec<Chip>,
    lane: Lane,
    y: f64,
    height: f64,
}

// Which part of the bar's width is an area's: all of it, unless it shares bytes with another.
#[derive(Clone, Copy)]
struct Lane {
    number: usize,
    of: usize,
}

struct Chip {
    kind: LandKind,
    text: String,
    x: f64,
    y: f64,
    width: f64,
}

struct Page<'a> {
    drawing: &'a Drawing,
    told: Vec<String>,
    cards: Vec<Card>,
    scale: Scale,
    top: f64,
    bar: f64,
}

impl Page<'_> {
    fn of(drawing: &Drawing) -> Page<'_> {
        let mut order: Vec<_> = (0..drawing.areas.len()).collect();
        order.sort_by_key(|&i| (drawing.areas[i].offset, drawing.areas[i].end()));
        let lanes = lanes(drawing, &order);
        let rows = drawing.rows(&order).into_iter();
        let mut cards: Vec<_> = rows.map(|row| Card::of(drawing, row, &lanes)).collect();
        let words = drawing.refusal.iter().flat_map(|r| r.split_whitespace());
        let told = filled(words.map(|w| clean(w, 96)), 96);
        let needed: f64 = cards.iter().map(|c| c.height + BETWEEN).sum();
        let bar = (needed - BETWEEN).max(BAR_LEAST);
        let scale = Scale::of(drawing, bar);
        place(&mut cards, bar, &scale);
        let top = 92.0 + told.len() as f64 * 20.0;
        Page {
            drawing,
            told,
            cards,
            scale,
            top,
            bar,
        }
    }

    fn title(&self) -> String {
        if self.drawing.title.is_empty() {
            "Flash map".into()
        } else {
            clean(&self.drawing.title, 60)
        }
    }

    fn open(&self, sheet: &mut Sheet) {
        let (high, title) = (self.top + self.bar + 50.0, escaped(&self.title()));
        let each: Vec<_> = self.cards.iter().map(Card::words).collect();
        let size = format!(r#"viewBox="0 0 {WIDTH} {high}" width="{WIDTH}" height="{high}""#);
        let name = r#"<svg xmlns="http://www.w3.org/2000/svg""#;
        sheet.line(&format!(
            r#"{name} {size} role="img" font-family="{SANS}">"#
        ));
        sheet.line(&format!("<title>{title}</title>"));
        sheet.line(&format!("<desc>{}</desc>", escaped(&each.join("; "))));
        sheet.line(HATCHED);
        if self.cards.iter().any(|card| card.locked) {
            sheet.line(LATTICE);
        }
        let looks = 0..self.drawing.areas.len().min(LOOKS);
        let patterns: Vec<_> = looks.filter_map(pattern).collect();
        if !patterns.is_empty() {
            sheet.line(&format!("<defs>\n{}\n</defs>", patterns.join("\n")));
        }
        let look = r##"rx="10" fill="#ffffff" stroke="#d0d6de""##;
        sheet.rect([0.5, 0.5, WIDTH - 1.0, high - 1.0], look);
    }

    fn heading(&self, sheet: &mut Sheet) {
        let bold = format!(r#"font-size="20" font-weight="700" fill="{INK}""#);
        sheet.text((MARGIN, 44.0), &bold, &self.title());
        let pale = format!(r#"font-size="13" fill="{PALE}""#);
        if !self.drawing.subtitle.is_empty() {
            let words = clean(&self.drawing.subtitle, 110);
            sheet.text((MARGIN, 66.0), &pale, &words);
        }
        let red = format!(r#"font-size="13" font-weight="600" fill="{RED}""#);
        for (n, line) in self.told.iter().enumerate() {
            sheet.text((MARGIN, 90.0 + n as f64 * 20.0), &red, line);
        }
    }

    // Where a stretch lies in the bar: its upper edge and its height.
    fn extent(&self, card: &Card) -> (f64, f64) {
        let (from, to) = (self.scale.at(card.from), self.scale.at(card.to));
        let upper = from.min(self.bar - THIN);
        (self.top + upper, (to - upper).max(THIN))
    }

    // From the stretch of the bar to its card.
    fn band(&self, sheet: &mut Sheet, card: &Card) {
        let ((y, height), hue) = (self.extent(card), card.hue);
        let (bar, upper) = (MARGIN + BAR, self.top + card.y);
        let (lower, foot) = (upper + card.height, y + height);
        let left = format!("M{bar} {foot:.1} L{bar} {y:.1}");
        let right = format!("L{CARD} {upper:.1} L{CARD} {lower:.1} Z");
        let look = format!(r#"fill="{hue}" fill-opacity="0.13""#);
        sheet.line(&format!(r#"<path d="{left} {right}" {look}/>"#));
    }

    fn frame(&self, sheet: &mut Sheet) {
        let (y, height) = (self.top - 1.0, self.bar + 2.0);
        let look = r##"fill="#f1f3f6" stroke="#8a95a3""##;
        sheet.rect([MARGIN - 1.0, y, BAR + 2.0, height], look);
    }

    fn stretch(&self, sheet: &mut Sheet, card: &Card) {
        let (y, height) = self.extent(card);
        let wide = BAR / card.lane.of as f64;
        let x = MARGIN + wide * card.lane.number as f64;
        let look = match card.row {
            Row::Gap(..) => r#"fill="url(#preset-gap)""#.into(),
            _ if card.faulty => dashed(),
            // A seam between neighbours, but none that would hide a thin one.
            _ if height > 6.0 && wide > 8.0 => {
                format!(r##"fill="{}" stroke="#ffffff""##, card.fill)
            }
            _ => format!(r#"fill="{}""#, card.fill),
        };
        sheet.line(&format!("<g><title>{}</title>", escaped(&card.words())));
        sheet.rect([x, y, wide, height], &look);
        if card.locked {
            sheet.rect([x, y, wide, height], BARRED);
        }
        if card.locked && height > 21.0 && wide > 21.0 {
            let (x, y) = (x + wide / 2.0, y + height / 2.0);
            let look = r##"rx="4" fill="#ffffff""##;
            sheet.rect([x - 9.0, y - 9.5, 18.0, 19.0], look);
            sheet.padlock((x - 5.0, y - 6.5));
        }
        sheet.line("</g>");
    }

    fn card(&self, sheet: &mut Sheet, card: &Card) {
        let (y, height) = (self.top + card.y, card.height);
        let gap = matches!(card.row, Row::Gap(..));
        let look = if gap {
            r##"fill="#ffffff" stroke="#c3cad3" stroke-dasharray="2 3""##.into()
        } else if card.faulty {
            dashed()
        } else {
            r##"fill="#f7f9fb" stroke="#d0d6de""##.to_string()
        };
        let look = format!(r#"rx="5" {look}"#);
        sheet.rect([CARD, y, CARD_WIDTH, height], &look);
        if !gap {
            let edge = format!(r#"rx="2" fill="{}""#, card.fill);
            sheet.rect([CARD, y, 5.0, height], &edge);
        }
        if card.locked {
            sheet.rect([CARD, y, 5.0, height], BARRED);
        }
        card.headline(sheet, y, self.drawing.end());
        card.notes(sheet, y);
        card.chips.iter().for_each(|c| c.draw(sheet, y));
    }

    // What the bar is a scale of, and what the chips are, as far as there are any.
    fn foot(&self, sheet: &mut Sheet) {
        let (y, end) = (self.top + self.bar, self.drawing.end());
        let pale = format!(r#"font-size="12" fill="{PALE}""#);
        let scale = if self.cards.is_empty() {
            "No partitions.".into()
        } else if self.scale.lifted {
            format!("0 to 0x{end:X}, to scale; what is too thin to see is thicker.")
        } else {
            format!("0 to 0x{end:X}, to scale.")
        };
        sheet.text((MARGIN, y + 28.0), &pale, &scale);
        let mut right = CARD_WIDTH - INSET;
        for kind in KINDS.into_iter().rev().filter(|k| self.has(*k)) {
            let mut chip = Chip::of(kind, word(kind).into(), 0.0, 0.0);
            chip.x = right - chip.width;
            chip.draw(sheet, y + 14.0);
            right = chip.x - BETWEEN;
        }
    }

    fn has(&self, kind: LandKind) -> bool {
        let mut chips = self.cards.iter().flat_map(|c| &c.chips);
        chips.any(|c| c.kind == kind)
    }
}

impl Card {
    fn of(drawing: &Drawing, row: Row, lanes: &[Lane]) -> Card {
        let (from, to) = bounds(drawing, row);
        let area = match row {
            Row::Area(i) => Some((i, &drawing.areas[i])),
            Row::Gap(..) => None,
        };
        let faulty = area.is_some_and(|(_, a)| a.faulty);
        let locked = area.is_some_and(|(_, a)| a.locked);
        let (hue, fill) = match area {
            None => ("#9aa4b1", String::new()),
            Some((_, area)) if area.faulty => (RED, RED.into()),
            Some((i, _)) => (hue(i), fill(i)),
        };
        let note = area.and_then(|(i, a)| note(drawing, i, a));
        let note = note.map(|n| clean(&n, 80));
        let above = 34.0 + NOTE * f64::from(u8::from(locked) + u8::from(note.is_some()));
        let chips = area.map_or(Vec::new(), |(_, a)| chips(a, above));
        let lines = chips.last().map_or(0.0, |c| c.y - above + LINE + 2.0);
        Card {
            row,
            name: name_of(drawing, row),
            from,
            to,
            faulty,
            locked,
            hue,
            fill,
            note,
            chips,
            lane: area.map_or(Lane { number: 0, of: 1 }, |(i, _)| lanes[i]),
            y: 0.0,
            height: above + lines,
        }
    }

    fn words(&self) -> String {
        let (name, from, to) = (&self.name, self.from, self.to);
        let lock = if self.locked { ", locked" } else { "" };
        format!(
            "{name}: 0x{from:X} to 0x{to:X}, {}{lock}",
            size_words(to - from)
        )
    }

    // Below its headline, each in a line of its own: that it is locked, and what is wrong with it.
    fn notes(&self, sheet: &mut Sheet, y: f64) {
        let mut y = y + 43.0;
        if self.locked {
            let bold = format!(r#"font-size="12" font-weight="600" fill="{INK}""#);
            sheet.padlock((CARD + INSET, y - 11.0));
            sheet.text((CARD + INSET + INSET, y), &bold, LOCKED);
            y += NOTE;
        }
        if let Some(note) = &self.note {
            let red = format!(r#"font-size="12" font-weight="600" fill="{RED}""#);
            sheet.text((CARD + INSET, y), &red, note);
        }
    }

    // Its name, from where up to where it goes, and its size.
    fn headline(&self, sheet: &mut Sheet, y: f64, end: u64) {
        let (from, to, digits) = (self.from, self.to, format!("{end:X}").len().max(6));
        let (y, right) = (y + 22.0, WIDTH - MARGIN - INSET);
        let name = match self.row {
            Row::Area(_) => format!(r#"font-size="15" font-weight="600" fill="{INK}""#),
            Row::Gap(..) => format!(r#"font-size="13" font-style="italic" fill="{PALE}""#),
        };
        sheet.text((CARD + INSET, y), &name, &self.name);
        let even = format!(r#"font-size="12" font-family="{EVEN}" fill="{PALE}""#);
        let place = format!("0x{from:0digits$X} to 0x{to:0digits$X}");
        sheet.text((CARD + 310.0, y), &even, &place);
        let bold = format!(r#"font-size="13" font-weight="600" text-anchor="end" fill="{INK}""#);
        sheet.text((right, y), &bold, &size_words(to - from));
    }
}

impl Chip {
    fn of(kind: LandKind, text: String, x: f64, y: f64) -> Chip {
        let width = width(&text) as f64 * COLUMN + 18.0;
        Chip {
            kind,
            text,
            x,
            y,
            width,
        }
    }

    fn draw(&self, sheet: &mut Sheet, y: f64) {
        let (x, y) = (CARD + INSET + self.x, y + self.y);
        let (look, ink) = match self.kind {
            LandKind::Component => (r##"fill="#dfe7f0" stroke="#8fa0b3""##, INK),
            LandKind::Application => (r##"fill="#ffffff" stroke="#8fa0b3""##, INK),
            LandKind::Chosen => (r##"fill="#1f6f54" stroke="#1f6f54""##, "#ffffff"),
        };
        let look = format!(r#"rx="10" {look}"#);
        sheet.rect([x, y, self.width, CHIP], &look);
        let even = format!(r#"font-size="12" font-family="{EVEN}" fill="{ink}""#);
        sheet.text((x + 9.0, y + 14.0), &even, &self.text);
    }
}

fn word(kind: LandKind) -> &'static str {
    match kind {
        LandKind::Component => "component",
        LandKind::Application => "application",
        LandKind::Chosen => "chosen application",
    }
}

fn note(drawing: &Drawing, i: usize, area: &Area) -> Option<String> {
    let overlap = drawing.overlap_words(i);
    if !area.faulty {
        return overlap;
    }
    let more = overlap.map_or(String::new(), |overlap| format!("; {overlap}"));
    Some(format!("refused here{more}"))
}

// What lands in an area, from left to right, in as many lines as it takes.
fn chips(area: &Area, above: f64) -> Vec<Chip> {
    let names = KINDS.into_iter().flat_map(|kind| {
        let names = area.landed(kind).into_iter();
        names.map(move |name| (kind, name))
    });
    let (mut x, mut y) = (0.0, above);
    let each = names.map(|(kind, name)| {
        let mut chip = Chip::of(kind, name, x, y);
        if x > 0.0 && x + chip.width > CARD_WIDTH - 2.0 * INSET {
            (x, y) = (0.0, y + LINE);
            (chip.x, chip.y) = (x, y);
        }
        x += chip.width + BETWEEN;
        chip
    });
    each.collect()
}

// Areas that share bytes stand side by side in the bar: each in the first lane that is free there.
fn lanes(drawing: &Drawing, order: &[usize]) -> Vec<Lane> {
    let areas = &drawing.areas;
    let mut lanes = vec![Lane { number: 0, of: 1 }; areas.len()];
    let mut ends: Vec<u64> = Vec::new();
    let shares =
        |i: usize| (0..areas.len()).any(|j| j != i && areas[i].shared(&areas[j]).is_some());
    let crowded: Vec<_> = order.iter().copied().filter(|&i| shares(i)).collect();
    for &i in &crowded {
        let free = ends.iter().position(|&end| end <= areas[i].offset);
        let number = free.unwrap_or(ends.len());
        ends.resize(ends.len().max(number + 1), 0);
        ends[number] = areas[i].end();
        lanes[i].number = number;
    }
    crowded.iter().for_each(|&i| lanes[i].of = ends.len());
    lanes
}

// Cards stand as near to the middle of their stretch as their neighbours let them.
fn place(cards: &mut [Card], bar: f64, scale: &Scale) {
    let mut least = 0.0;
    for card in cards.iter_mut() {
        let middle = (scale.at(card.from) + scale.at(card.to)) / 2.0;
        card.y = (middle - card.height / 2.0).max(least);
        least = card.y + card.height + BETWEEN;
    }
    let mut most = bar;
    for card in cards.iter_mut().rev() {
        card.y = card.y.min(most - card.height);
        most = card.y - BETWEEN;
    }
}

// Where each edge of an area is in the bar, and whether anything is thicker there than it should be.
struct Scale {
    places: BTreeMap<u64, f64>,
    lifted: bool,
}

impl Scale {
    // What would be too thin to see is lifted, and all else shares the rest by its size.
    fn of(drawing: &Drawing, bar: f64) -> Scale {
        let each = drawing.areas.iter().flat_map(|a| [a.offset, a.end()]);
        let mut edges: Vec<_> = once(0).chain(each).collect();
        edges.sort_unstable();
        edges.dedup();
        let whole = drawing.end().max(1) as f64;
        let share = |pair: &[u64]| (pair[1] - pair[0]) as f64 / whole;
        let shares: Vec<_> = edges.windows(2).map(share).collect();
        let thin = |share: &f64| share * bar < THIN;
        let lifted = shares.iter().filter(|s| thin(s)).count();
        let others: f64 = shares.iter().filter(|s| !thin(s)).sum();
        let left = (bar - lifted as f64 * THIN).max(0.0) / others.max(f64::MIN_POSITIVE);
        let mut y = 0.0;
        let below = shares.iter().map(|s| {
            y += if thin(s) { THIN } else { s * left };
            y
        });
        let empty = drawing.areas.iter().any(|a| a.size == 0);
        Scale {
            places: edges.iter().copied().zip(once(0.0).chain(below)).collect(),
            lifted: lifted > 0 || empty,
        }
    }

    // Every edge has its place.
    fn at(&self, edge: u64) -> f64 {
        self.places.get(&edge).copied().unwrap_or(0.0)
    }
}

fn dashed() -> String {
    format!(r##"fill="#fbe4e2" stroke="{RED}" stroke-width="1.5" stroke-dasharray="5 3""##)
}

// Control characters are gone by now: XML could not write them.
fn escaped(words: &str) -> String {
    let each = words.chars().map(|c| match c {
        '&' => "&amp;".into(),
        '<' => "&lt;".into(),
        '>' => "&gt;".into(),
        '"' => "&quot;".into(),
        '\'' => "&#39;".into(),
        _ => c.to_string(),
    });
    each.collect()
}
