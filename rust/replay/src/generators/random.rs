//! Random texts and bytes, the same for the same seed everywhere.

/// How many random texts a test takes: all of them, or a fifth where programs are emulated, which takes ten
/// times as long (`rust/cross` says so).
pub fn turns(all: usize) -> usize {
    all / stride()
}

/// Of listed cases each is taken, or each fifth there.
pub fn stride() -> usize {
    if emulated() { 5 } else { 1 }
}

fn emulated() -> bool {
    std::env::var_os("PRESET_EMULATED").is_some()
}

/// A counter through a mixing function (splitmix64).
pub struct Rng(u64);

impl Rng {
    pub fn new(seed: u64) -> Self {
        Rng(seed)
    }

    /// Any number of 64 bits.
    pub fn draw(&mut self) -> u64 {
        self.0 = self.0.wrapping_add(0x9E37_79B9_7F4A_7C15);
        let mut z = self.0;
        z = (z ^ (z >> 30)).wrapping_mul(0xBF58_476D_1CE4_E5B9);
        z = (z ^ (z >> 27)).wrapping_mul(0x94D0_49BB_1331_11EB);
        z ^ (z >> 31)
    }

    /// A number below `n`.
    pub fn below(&mut self, n: usize) -> usize {
        (self.draw() % n as u64) as usize
    }

    pub fn pick<'a>(&mut self, from: &[&'a str]) -> &'a str {
        from[self.below(from.len())]
    }
}

// What the text layer tells apart.
const MARKS: [&str; 16] = [
    "\"", "\"", "\\", "[", "]", "#", "=", "\n", "\n", "\r", "\r\n", "a", " ", "\\\"", "[", "]",
];

// White_Space of one to three bytes, and characters that only look like it.
const SPACES: [&str; 32] = [
    " ", "\t", "\n", "\u{B}", "\u{C}", "\r", "\u{85}", "\u{A0}", "\u{1680}", "\u{2000}",
    "\u{2005}", "\u{2009}", "\u{200A}", "\u{2028}", "\u{2029}", "\u{202F}", "\u{205F}", "\u{3000}",
    "\u{1C}", "\u{1F}", "\u{84}", "\u{A1}", "\u{180E}", "\u{1FFF}", "\u{200B}", "\u{2027}",
    "\u{202E}", "\u{2060}", "\u{3001}", "\u{FEFF}", "\0", "a",
];

const WORDS: [&str; 16] = [
    "a", "name", "b1", "0x1F", "1_000", ",", ".", "=", " = ", "é", "漢", "😀", "\u{7F}", "'", "-",
    "true",
];

// Whole lines and halves of them, so that long texts are not all refused at once.
const LINES: [&str; 20] = [
    "a = 1\n",
    "[board]\n",
    "[[partition]]\r\n",
    "name = \"boot\" # c\n",
    "f = [\"x\", # c\n \"y\",\n\n]\n",
    "f = [\n",
    "]\n",
    "\"x # y\",\n",
    "# c ] \"\n",
    "\n",
    "\r\n",
    " \t\u{3000}\n",
    "s = \"x\\\"#\"\n",
    "s = \"x\n",
    "y\" # z\"\n",
    "\"\n",
    "s = \"x\\\n",
    "k = [[1], [\"]\"]] # [\r\n",
    "\u{FEFF}\n",
    "\u{A0}b = \"é\u{2003}\"\u{85}\n",
];

/// A text of one of several styles, from nothing to some hundred bytes, seldom a few thousand.
pub fn text(r: &mut Rng) -> String {
    let n = match r.below(100) {
        0 => r.below(400),
        1..=10 => r.below(60),
        _ => r.below(14),
    };
    let style = r.below(5);
    (0..n).map(|_| piece(r, style)).collect()
}

fn piece(r: &mut Rng, style: usize) -> &'static str {
    let kind = match style {
        0 => 0,
        1 => 3,
        2 => 1 + r.below(2),
        3 => [3, 3, 3, 0][r.below(4)],
        _ => r.below(4),
    };
    match kind {
        0 => r.pick(&MARKS),
        1 => r.pick(&SPACES),
        2 => r.pick(&WORDS),
        _ => r.pick(&LINES),
    }
}

/// Bytes that are mostly not UTF-8: drawn at random, or a text with some of them changed.
pub fn bytes(r: &mut Rng) -> Vec<u8> {
    if r.below(3) == 0 {
        let n = r.below(12);
        return (0..n).map(|_| r.draw() as u8).collect();
    }
    let mut out = text(r).into_bytes();
    for _ in 0..r.below(3) {
        damage(r, &mut out);
    }
    out
}

fn damage(r: &mut Rng, bytes: &mut Vec<u8>) {
    let at = r.below(bytes.len() + 1);
    match r.below(3) {
        0 => bytes.truncate(at),
        1 => bytes.insert(at, 0x80 | r.draw() as u8),
        _ if at < bytes.len() => bytes[at] = r.draw() as u8,
        _ => {}
    }
}
