//! Maps of drawings made by hand: what the terminal shows to the letter, and SVG that holds
//! together whatever the names and numbers are.
use preset::map::{Area, Drawing, Land, LandKind, size_words};
use std::collections::{BTreeMap, BTreeSet};

fn area(name: &str, offset: u64, size: u64) -> Area {
    Area {
        name: name.into(),
        offset,
        size,
        ..Area::default()
    }
}

fn landing(mut area: Area, kind: LandKind, names: &[&str]) -> Area {
    let lands = names.iter().map(|&name| Land {
        kind,
        name: name.into(),
    });
    area.lands.extend(lands);
    area
}

fn faulty(area: Area) -> Area {
    Area {
        faulty: true,
        ..area
    }
}

fn locked(area: Area) -> Area {
    Area {
        locked: true,
        ..area
    }
}

fn drawing(areas: Vec<Area>) -> Drawing {
    Drawing {
        title: "desk".into(),
        subtitle: "d13x, spi-nor".into(),
        areas,
        refusal: None,
    }
}

fn example() -> Drawing {
    let boot = area("boot", 0, 0x40000);
    let profiles = area("profiles", 0x40000, 0x100000);
    drawing(vec![
        landing(boot, LandKind::Component, &["first"]),
        landing(profiles, LandKind::Chosen, &["desk"]),
    ])
}

// Two that overlap, the second refused, one of size 0, and a gap before the last.
fn refused() -> Drawing {
    let mut all = drawing(vec![
        area("boot", 0, 0x40000),
        faulty(area("profiles", 0x30000, 0x20000)),
        area("spare", 0x48000, 0),
        area("logs", 0x60000, 0x20000),
    ]);
    all.refusal = Some("desk.toml:7: refused 47: partition starts before the previous end".into());
    all
}

// One with a component, one that an application is refused in, one of size 0 and one that shares bytes.
fn locks() -> Drawing {
    let calib = locked(area("calib", 0x20000, 0x20000));
    let keys = faulty(locked(area("keys", 0x40000, 0x20000)));
    let mut all = drawing(vec![
        area("boot", 0, 0x20000),
        landing(calib, LandKind::Component, &["lens"]),
        landing(keys, LandKind::Application, &["spots"]),
        locked(area("none", 0x60000, 0)),
        locked(area("late", 0x50000, 0x30000)),
    ]);
    all.refusal = Some("desk.toml:9: refused 67: partition \"keys\" is locked".into());
    all
}

// Names as nobody should write them.
const NASTY: [&str; 12] = [
    "",
    "<&\"'>",
    "]]>--><script>",
    "a\nb\tc\r",
    "\u{1b}[31mred\u{7}",
    "\u{202e}turned\u{200b}",
    "e\u{301}\u{0}\u{ffff}",
    "\u{4e16}\u{754c}\u{4e16}\u{754c}\u{4e16}\u{754c}\u{4e16}\u{754c}\u{4e16}\u{754c}\u{4e16}",
    "\\n \\u{1b}",
    "(unassigned)",
    "WWWWWWWWWWWWWWWWWWWWWWWWWWWWWWWWWWWWWWWWWWWWWWWWWWWWWWWWWWWWWWWWWWWWWWWWWWWWWWWWWWWWWW",
    "\u{1f3ad} stage",
];

// A row of numbers that is the same in every run.
struct Dice(u64);

impl Dice {
    fn roll(&mut self, sides: u64) -> u64 {
        let Dice(seed) = self;
        *seed = seed
            .wrapping_mul(6364136223846793005)
            .wrapping_add(1442695040888963407);
        (*seed >> 33) % sides
    }

    fn number(&mut self) -> u64 {
        let bits = self.roll(33);
        let near = (1 << bits) + self.roll(3);
        [near, near.saturating_sub(2), 0, u64::from(u32::MAX)][self.roll(4) as usize]
    }

    fn name(&mut self) -> String {
        let pick = self.roll(NASTY.len() as u64) as usize;
        NASTY[pick].repeat(self.roll(3) as usize)
    }

    fn area(&mut self) -> Area {
        let mut area = area(&self.name(), self.number(), self.number());
        area.faulty = self.roll(8) == 0;
        area.locked = self.roll(4) == 0;
        for _ in 0..self.roll(4) {
            let kinds = [LandKind::Component, LandKind::Application, LandKind::Chosen];
            let name = self.name();
            area = landing(area, kinds[self.roll(3) as usize], &[&name]);
        }
        area
    }

    fn drawing(&mut self) -> Drawing {
        let count = self.roll(33);
        Drawing {
            title: self.name(),
            subtitle: self.name(),
            areas: (0..count).map(|_| self.area()).collect(),
            refusal: (self.roll(2) == 0).then(|| self.name()),
        }
    }
}

// All that is drawn below, and many more that dice made.
fn drawings() -> Vec<Drawing> {
    let mut dice = Dice(1);
    let thrown = (0..30).map(|_| dice.drawing());
    let nasty = NASTY.iter().map(|name| area(name, 0, 4096)).collect();
    let most = [
        area("a", u64::MAX, u64::MAX),
        area("b", 0, u64::MAX),
        area("c", u64::MAX, 0),
    ];
    let by_hand = [
        example(),
        refused(),
        locks(),
        thirty_two(),
        drawing(nasty),
        drawing(most.into()),
        Drawing::default(),
    ];
    by_hand.into_iter().chain(thrown).collect()
}

// Each twice as large as the one before: by a factor of 2^31 in all.
fn thirty_two() -> Drawing {
    let each = (0..32).map(|i| area(&format!("p{i}"), (1 << i) - 1, 1 << i));
    drawing(each.collect())
}

#[test]
fn the_example_in_a_terminal() {
    let expected = "\
desk
d13x, spi-nor

   name      start     end          size   0                           1.25 MiB
   boot      0x000000  0x040000  256 KiB  [#######                             ]
             component: first
   profiles  0x040000  0x140000    1 MiB  [       #############################]
             chosen application: desk
";
    assert_eq!(example().terminal(), expected);
}

#[test]
fn a_refused_layout_in_a_terminal() {
    let expected = "\
desk
d13x, spi-nor

   name          start     end          size   0                        512 KiB
   boot          0x000000  0x040000  256 KiB  [################                ]
!! profiles      0x030000  0x050000  128 KiB  [            XXXX!!!!            ]
                 overlaps boot by 64 KiB
   spare         0x048000  0x048000      0 B  [                  |             ]
   (unassigned)  0x050000  0x060000   64 KiB  [                    ....        ]
   logs          0x060000  0x080000  128 KiB  [                        ########]

!! desk.toml:7: refused 47: partition starts before the previous end
";
    assert_eq!(refused().terminal(), expected);
}

#[test]
fn locks_in_a_terminal() {
    let expected = "\
desk
d13x, spi-nor

   name   start     end          size   0                               512 KiB
   boot   0x000000  0x020000  128 KiB  [##########                             ]
   calib  0x020000  0x040000  128 KiB  [          LLLLLLLLLL                   ]
          locked: takes no application
          component: lens
!! keys   0x040000  0x060000  128 KiB  [                    !!!!!!!!!          ]
          locked: takes no application
          application: spots
   none   0x060000  0x060000      0 B  [                             |         ]
          locked: takes no application
   late   0x050000  0x080000  192 KiB  [                        XXXXXLLLLLLLLLL]
          locked: takes no application
          overlaps keys by 64 KiB

!! desk.toml:9: refused 67: partition \"keys\" is locked
";
    assert_eq!(locks().terminal(), expected);
    assert!(!example().terminal().contains('L') && !refused().terminal().contains('L'));
}

#[test]
fn nothing_to_draw_in_a_terminal() {
    let mut empty = drawing(Vec::new());
    empty.refusal = Some("desk.toml: refused 40: no partitions".into());
    let expected = "\
desk
d13x, spi-nor

   (no partitions)

!! desk.toml: refused 40: no partitions
";
    assert_eq!(empty.terminal(), expected);
    assert_eq!(Drawing::default().terminal(), "   (no partitions)\n");
}

// What stands above the columns stays above them, however short names and sizes are.
#[test]
fn short_names_in_a_terminal() {
    let expected = "\
desk
d13x, spi-nor

   name  start     end       size   0                                       8 B
   a     0x000000  0x000008   8 B  [###########################################]
";
    assert_eq!(drawing(vec![area("a", 0, 8)]).terminal(), expected);
}

#[test]
fn what_lands_is_grouped_and_wrapped() {
    let names = [
        "washes",
        "beams",
        "LED bars",
        "strobes",
        "PAR cans",
        "house lights",
        "tests",
    ];
    let all = landing(area("profiles", 0, 0x500000), LandKind::Application, &names);
    let all = landing(all, LandKind::Chosen, &["spots"]);
    let all = landing(all, LandKind::Component, &["index", "fonts"]);
    let got = drawing(vec![all]).terminal();
    let notes: Vec<_> = got.lines().skip(5).collect();
    let expected = [
        "             components: index, fonts",
        "             chosen application: spots",
        "             applications: washes, beams, LED bars, strobes, PAR cans,",
        "             house lights, tests",
    ];
    assert_eq!(notes, expected);
}

// The bar of every row of a map, as the cells between its brackets.
fn bars(map: &str) -> Vec<&str> {
    let each = map
        .lines()
        .filter_map(|l| Some(l.strip_suffix(']')?.rsplit_once('[')?.1));
    each.collect()
}

#[test]
fn bars_follow_the_sizes() {
    let map = thirty_two().terminal();
    let bars = bars(&map);
    assert_eq!(bars.len(), 32);
    let (mut before, total) = (0, (1u64 << 32) - 1);
    for (i, bar) in bars.iter().enumerate() {
        let (cells, filled) = (bar.len() as f64, bar.matches('#').count());
        let exact = (1u64 << i) as f64 / total as f64 * cells;
        assert!((filled as f64 - exact).abs() <= 1.0, "{bar}: {exact}");
        assert!(
            filled >= before.max(1),
            "{bar} is shorter than the one above"
        );
        before = filled;
    }
}

#[test]
fn gaps_fill_what_is_left() {
    let apart = drawing(vec![
        area("late", 0x6000, 0x2000),
        area("early", 0x2000, 0x1000),
        area("inside", 0x2000, 0x800),
    ]);
    let map = apart.terminal();
    let gap = |l: &&str| l.contains("(unassigned)");
    let gaps: Vec<_> = map.lines().filter(gap).map(|l| &l[17..35]).collect();
    assert_eq!(gaps, ["0x003000  0x006000", "0x000000  0x002000"]);
    assert_eq!(apart.svg().matches("(unassigned): ").count(), 4);
    assert!(!example().terminal().contains("(unassigned)"));
}

#[test]
fn sizes_are_exact() {
    let words = [
        (0, "0 B"),
        (5000, "5000 B"),
        (1023, "1023 B"),
        (1024, "1 KiB"),
        (0x1200, "4.5 KiB"),
        (0x1280, "4736 B"),
        (0x42000, "264 KiB"),
        (0x140000, "1.25 MiB"),
        (0x1C0000, "1.75 MiB"),
        (0x500000, "5 MiB"),
        (0xFFFF_F000, "4194300 KiB"),
        (1 << 32, "4 GiB"),
        (u64::MAX, "18446744073709551615 B"),
    ];
    for (size, expected) in words {
        assert_eq!(size_words(size), expected);
    }
}

#[test]
fn lines_stay_narrow_and_plain() {
    for drawing in drawings() {
        let map = drawing.terminal();
        assert!(map.ends_with('\n') && !map.contains("\n\n\n"), "{map}");
        for c in map.chars().filter(|c| *c != '\n') {
            assert!(
                !c.is_control() && !"\u{202e}\u{200b}\u{ffff}".contains(c),
                "{c:?}"
            );
        }
        let large = drawing.areas.iter().any(|a| a.end() > 1 << 33);
        let mut rows = map.lines().filter(|l| l.ends_with(']'));
        assert!(large || rows.all(|l| l.chars().count() <= 80), "{map}");
    }
}

#[test]
fn nasty_names_are_shown_and_cut() {
    let map = drawing(NASTY.iter().map(|n| area(n, 0, 4096)).collect()).terminal();
    let shown = [
        "\"\"",
        "<&\"'>",
        "a\\nb\\tc\\r",
        "\\u{1b}[31mred\\u{7}",
        "\\n \\u{1b}",
    ];
    for name in shown.into_iter().chain(["WWWWWWWWWWWWWWWWW...  0x"]) {
        assert!(map.contains(&format!("\n   {name}")), "{name}:\n{map}");
    }
}

type Tag<'a> = (&'a str, BTreeMap<&'a str, &'a str>);

// The tags of a document, each with its attributes; where it is not well-formed, why.
fn tags(xml: &str) -> Result<Vec<Tag<'_>>, String> {
    let (mut open, mut out, mut rest) = (Vec::new(), Vec::new(), xml);
    while let Some((words, tail)) = rest.split_once('<') {
        plain(words)?;
        let (tag, after) = tail.split_once('>').ok_or("a tag that does not end")?;
        rest = after;
        if let Some(name) = tag.strip_prefix('/') {
            let closes = open.pop() == Some(name);
            closes.then_some(()).ok_or_else(|| format!("</{name}>"))?;
            continue;
        }
        let (tag, alone) = tag.strip_suffix('/').map_or((tag, false), |t| (t, true));
        let (name, attributes) = tag.split_once(' ').unwrap_or((tag, ""));
        let below = !open.is_empty() || out.is_empty();
        below.then_some(()).ok_or("two roots")?;
        out.push((name, pairs(attributes)?));
        open.extend((!alone).then_some(name));
    }
    let done = open.is_empty() && rest == "\n";
    done.then_some(out)
        .ok_or_else(|| format!("open at the end: {open:?} {rest:?}"))
}

// Text between tags: every ampersand begins one of five names, and no character is forbidden.
fn plain(words: &str) -> Result<(), String> {
    let names = ["amp;", "lt;", "gt;", "quot;", "#39;"];
    let known = |part: &str| names.iter().any(|n| part.starts_with(n));
    let named = words.split('&').skip(1).all(known);
    let forbidden = |c: char| c.is_control() && c != '\n' || "<>\u{fffe}\u{ffff}".contains(c);
    let fine = named && !words.contains(forbidden);
    fine.then_some(()).ok_or_else(|| format!("text {words:?}"))
}

fn pairs(mut rest: &str) -> Result<BTreeMap<&str, &str>, String> {
    let mut out = BTreeMap::new();
    while !rest.is_empty() {
        let (name, value) = rest
            .split_once("=\"")
            .ok_or_else(|| format!("attributes {rest}"))?;
        let (value, after) = value
            .split_once('"')
            .ok_or_else(|| format!("value {value}"))?;
        plain(value)?;
        let once = out.insert(name.trim_start(), value).is_none();
        once.then_some(()).ok_or_else(|| format!("{name} twice"))?;
        rest = after;
    }
    Ok(out)
}

fn number(attributes: &BTreeMap<&str, &str>, name: &str) -> f64 {
    attributes[name].parse().expect("a number")
}

#[test]
fn every_svg_is_well_formed() {
    for drawing in drawings() {
        let picture = drawing.svg();
        let tags = tags(&picture).unwrap_or_else(|e| panic!("{e}\n{picture}"));
        let (name, root) = &tags[0];
        assert_eq!(
            (*name, root["xmlns"]),
            ("svg", "http://www.w3.org/2000/svg")
        );
        assert_eq!(
            root["viewBox"],
            format!("0 0 {} {}", root["width"], root["height"])
        );
        assert_eq!((tags[1].0, tags[2].0), ("title", "desc"));
        let known = [
            "svg", "title", "desc", "defs", "pattern", "rect", "line", "path", "g", "text",
        ];
        assert!(tags.iter().all(|(name, _)| known.contains(name)));
        assert!(!picture.contains("NaN") && !picture.contains("inf\""));
        let fills = tags.iter().filter_map(|(_, a)| a.get("fill"));
        let mut urls = fills.filter(|f| f.contains("url"));
        let patterns = tags.iter().filter(|(name, _)| *name == "pattern");
        let known: Vec<_> = patterns
            .map(|(_, a)| format!("url(#{})", a["id"]))
            .collect();
        assert!(urls.all(|f| known.iter().any(|k| k == f)));
    }
}

#[test]
fn svg_names_everything() {
    let picture = example().svg();
    let words = [
        "desk",
        "d13x, spi-nor",
        "boot",
        "0x000000 to 0x040000",
        "256 KiB",
        "first",
    ];
    let more = [
        "profiles",
        "0x040000 to 0x140000",
        "1 MiB",
        "component",
        "chosen application",
    ];
    for words in words.into_iter().chain(more) {
        assert!(picture.contains(&format!(">{words}</text>")), "{words}");
    }
    assert!(!picture.contains("refused here") && !picture.contains("stroke-dasharray"));
    let picture = refused().svg();
    for words in [
        "refused here; overlaps boot by 64 KiB",
        "(unassigned)",
        "0 B",
    ] {
        assert!(picture.contains(&format!(">{words}</text>")), "{words}");
    }
    assert!(picture.contains(">desk.toml:7: refused 47: partition starts"));
    assert!(Drawing::default().svg().contains(">No partitions.</text>"));
}

// By a lattice in the bar and on the card's edge, by a padlock where there is space, and in words.
#[test]
fn locks_in_svg() {
    let picture = locks().svg();
    let count = |part: &str| picture.matches(part).count();
    assert_eq!(count(">locked: takes no application</text>"), 4);
    assert_eq!(count("fill=\"url(#preset-lock)\""), 8);
    assert_eq!(count("<pattern id=\"preset-lock\""), 1);
    // on each card; in the bar the one of size 0 is too thin for it
    assert_eq!(count("<g transform="), 4 + 3);
    let calib = "calib: 0x20000 to 0x40000, 128 KiB, locked";
    assert_eq!(count(&format!("<g><title>{calib}</title>")), 1);
    assert_eq!(count(&format!("; {calib}; keys: ")), 1);
    assert_eq!(count("boot: 0x0 to 0x20000, 128 KiB, locked"), 0);
    assert_eq!(count(">refused here</text>"), 1);
    for open in [example(), refused(), thirty_two()] {
        let picture = open.svg();
        assert!(!picture.contains("lock") && !picture.contains("<g transform="));
    }
}

// The bar's part of an area: the line after its title.
fn stretch(picture: &str, name: &str) -> BTreeMap<String, f64> {
    let all = bar(picture, name);
    let lengths = ["x", "y", "width", "height"];
    lengths.map(|n| (n.into(), number(&all, n))).into()
}

fn bar<'a>(picture: &'a str, name: &str) -> BTreeMap<&'a str, &'a str> {
    let title = format!("<g><title>{name}: ");
    let mut lines = picture.lines().skip_while(|l| !l.starts_with(&title));
    let tag = lines.nth(1).and_then(|l| l.strip_prefix("<rect "));
    let tag = tag.and_then(|l| l.strip_suffix("/>")).expect("a rect");
    pairs(tag).expect("attributes")
}

// What an area is filled with: a colour, or all that is in a pattern.
fn look<'a>(picture: &'a str, fill: &'a str) -> &'a str {
    let Some(id) = fill.strip_prefix("url(#").and_then(|f| f.strip_suffix(')')) else {
        return fill;
    };
    let (_, rest) = picture
        .split_once(&format!("<pattern id=\"{id}\""))
        .expect("a pattern");
    rest.split_once("</pattern>").expect("its end").0
}

// How bright a colour is, from 0 to 1, as the web's guidelines count.
fn bright(colour: &str) -> f64 {
    let part = |at: usize| {
        let part = u8::from_str_radix(&colour[at..at + 2], 16).expect("a part");
        let part = f64::from(part) / 255.0;
        if part <= 0.04045 {
            part / 12.92
        } else {
            ((part + 0.055) / 1.055).powf(2.4)
        }
    };
    0.2126 * part(1) + 0.7152 * part(3) + 0.0722 * part(5)
}

// As many as a preset may have, at the edge of the card as in the bar.
#[test]
fn no_two_of_thirty_two_areas_look_the_same() {
    let picture = thirty_two().svg();
    let fills: Vec<_> = (0..32)
        .map(|i| bar(&picture, &format!("p{i}"))["fill"])
        .collect();
    let looks: BTreeSet<_> = fills.iter().map(|fill| look(&picture, fill)).collect();
    assert_eq!(looks.len(), 32);
    for fill in &fills {
        let edge = format!("rx=\"2\" fill=\"{fill}\"");
        assert_eq!(picture.matches(&edge).count(), 1, "{fill}");
    }
    // white marks are seen on each colour, and each colour on white
    for colour in fills.iter().filter(|fill| fill.starts_with('#')) {
        let contrast = 1.05 / (bright(colour) + 0.05);
        assert!(contrast >= 3.0, "{colour}: {contrast}");
    }
    // six need no patterns
    assert!(!refused().svg().contains("preset-look"));
}

#[test]
fn the_bar_is_to_scale() {
    let picture = example().svg();
    let (boot, profiles) = (stretch(&picture, "boot"), stretch(&picture, "profiles"));
    assert_eq!(profiles["height"], 4.0 * boot["height"]);
    assert_eq!(boot["y"] + boot["height"], profiles["y"]);
    let picture = refused().svg();
    let (boot, profiles) = (stretch(&picture, "boot"), stretch(&picture, "profiles"));
    assert_eq!(boot["x"] + boot["width"], profiles["x"], "side by side");
    assert!(profiles["y"] < boot["y"] + boot["height"], "at one height");
    let spare = stretch(&picture, "spare");
    assert!(spare["height"] >= 3.0, "a line at least");
}

#[test]
fn nothing_thin_is_hidden() {
    let picture = thirty_two().svg();
    assert!(picture.contains("what is too thin to see is thicker"));
    assert!(!example().svg().contains("thicker"));
    let each = (0..32).map(|i| stretch(&picture, &format!("p{i}")));
    let all: Vec<_> = each.collect();
    for pair in all.windows(2) {
        let seen = pair[1]["y"] - pair[0]["y"];
        assert!(seen >= 2.9, "{pair:?}");
        assert!((seen - pair[0]["height"]).abs() < 0.2, "{pair:?}");
    }
    let (large, half) = (all[31]["height"], all[30]["height"]);
    assert!((large / half - 2.0).abs() < 0.01, "{large} and {half}");
}

// Names of cards stand below one another, and everything inside the picture.
#[test]
fn no_label_covers_another() {
    for drawing in drawings() {
        let picture = drawing.svg();
        let tags = tags(&picture).expect("well-formed");
        let (wide, high) = (number(&tags[0].1, "width"), number(&tags[0].1, "height"));
        let cards = tags.iter().filter(|(_, a)| a.get("rx") == Some(&"5"));
        let mut least = 0.0;
        for (_, card) in cards {
            let y = number(card, "y");
            assert!(y >= least, "a card at {y} covers one that ends at {least}");
            least = y + number(card, "height") + 7.0;
        }
        for (_, shape) in tags
            .iter()
            .filter(|(name, _)| ["rect", "text"].contains(name))
        {
            let size = |name| {
                shape
                    .get(name)
                    .map_or(0.0, |n| n.parse().expect("a number"))
            };
            let (right, foot) = (size("x") + size("width"), size("y") + size("height"));
            assert!(
                right <= wide && foot <= high,
                "{shape:?} in {wide} x {high}"
            );
        }
    }
}
