//! Arrays over many lines.
use super::random::Rng;
use super::value::damaged;

/// How many items the array of `features` has.
pub const FEATURES: usize = 100;

/// One array of 100 features over that many physical lines, 102 or more: each feature on a line of its own, the others
/// blank and evenly spread, since an array of thousands of values is refused.
pub fn features(lines: usize) -> String {
    let blank = lines - FEATURES - 2;
    let blank_before = |i| i * blank / FEATURES;
    let each = (0..FEATURES).map(|i| {
        let after = blank_before(i + 1) - blank_before(i);
        format!("    \"feature-{i:02}\",\n{}", "\n".repeat(after))
    });
    format!("features = [\n{}]\n", each.collect::<String>())
}

const HEADS: [&str; 4] = [
    "f = [\n",
    "f = [ # ] \"\n",
    "\n# c\n\n[a]\r\nf = [\"x\",\n",
    "s = \"x\n\", f = [[1],\n",
];

// Each leaves brackets and strings as it finds them, so that an array of hundreds of them can be whole.
const PIECES: [&str; 10] = [
    "\"pan\",\n",
    "    \"tilt\", # ] \"\n",
    "\n",
    "\u{3000}\r\n",
    "# [ \" ]\n",
    "\"]\", \"# [\",\n",
    "[1,\n\n[2]],\r\n",
    // the backslash hides the LF that joins the lines
    "\"x\\\ny\",\n",
    "\"x\\\\\\\r\n\\\"\",\n",
    // the first `#` is kept; seen from its own line alone, the second is outside
    "\"x # [\n] y # \"\n[\",\n",
];

const ENDS: [&str; 8] = [
    "]",
    "]\n",
    "]\nb = 1\n",
    "]]",
    "]]\n",
    "\n]\n]",
    "\"]\n",
    "",
];

/// An array over at least that many lines; some have a bracket too many or do not end, and about half are damaged.
pub fn array(r: &mut Rng, lines: usize) -> String {
    let mut text = String::from(r.pick(&HEADS));
    while text.matches('\n').count() < lines {
        text.push_str(r.pick(&PIECES));
    }
    text.push_str(r.pick(&ENDS));
    damaged(r, text)
}
