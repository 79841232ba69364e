//! The shortest text found that still tells two sides apart.

// A long text may stay longer than it need be.
const STEPS: usize = 4_000;

/// Takes out parts, ever smaller ones, as long as the text still fails.
pub fn shortest(text: &str, fails: impl Fn(&str) -> bool) -> String {
    let mut left = STEPS;
    let all: Vec<char> = text.chars().collect();
    let mut fails = |part: &[char]| fails(&part.iter().collect::<String>());
    let short = shortest_of(&all, &mut fails, &mut left);
    short.into_iter().collect()
}

/// The shortest text found that differs, and how; or how it did `first`, where it never did again.
/// Lines are left out, half of them at a time and then fewer, then parts of what is left down to single
/// bytes, and all of that again for as long as it helps.
pub fn shortest_difference(
    text: &[u8],
    first: String,
    mut compare: impl FnMut(&[u8]) -> Result<(), String>,
) -> (Vec<u8>, String) {
    let (mut left, mut short, mut length) = (STEPS, text.to_vec(), usize::MAX);
    while short.len() < length {
        length = short.len();
        let lines: Vec<&[u8]> = short.split_inclusive(|&b| b == b'\n').collect();
        let mut differs = |part: &[&[u8]]| compare(&part.concat()).is_err();
        let fewer = shortest_of(&lines, &mut differs, &mut left).concat();
        let mut differs = |part: &[u8]| compare(part).is_err();
        short = shortest_of(&fewer, &mut differs, &mut left);
    }
    let difference = compare(&short).err().unwrap_or(first);
    (short, difference)
}

// Of lines, characters or bytes, and in no more steps than are left.
fn shortest_of<T: Copy>(
    text: &[T],
    fails: &mut impl FnMut(&[T]) -> bool,
    left: &mut usize,
) -> Vec<T> {
    let mut best = text.to_vec();
    let mut size = best.len().div_ceil(2);
    while size > 0 && *left > 0 {
        let length = best.len();
        take_out(&mut best, size, fails, left);
        if best.len() == length {
            size /= 2;
        }
    }
    best
}

// One way through the text, in steps of a quarter of what is taken out.
fn take_out<T: Copy>(
    text: &mut Vec<T>,
    size: usize,
    fails: &mut impl FnMut(&[T]) -> bool,
    left: &mut usize,
) {
    let mut at = 0;
    while at < text.len() && *left > 0 {
        *left -= 1;
        let end = text.len().min(at + size);
        let shorter = [&text[..at], &text[end..]].concat();
        if fails(&shorter) {
            *text = shorter;
        } else {
            at += size.div_ceil(4);
        }
    }
}

#[cfg(test)]
mod tests {
    use super::*;

    const LONG: &str = "[board]\nchip = \"d13x\"\n[a]\nx = [1,\n2]\n# c\n[b]\ny = \"z\"\n";

    // Made up: a text differs that has both of these, in this order.
    fn differs(text: &[u8]) -> Result<(), String> {
        let find = |s: &[u8], part: &[u8]| s.windows(part.len()).position(|w| w == part);
        let after = find(text, b"x = ").and_then(|at| find(&text[at..], b"\"z"));
        match after {
            Some(_) => Err(format!("{} bytes", text.len())),
            None => Ok(()),
        }
    }

    #[test]
    fn nothing_can_be_left_out_of_the_shortest() {
        let (short, told) = shortest_difference(LONG.as_bytes(), String::new(), differs);
        assert_eq!(short, b"x = \"z");
        assert_eq!(told, "6 bytes");
    }

    #[test]
    fn a_difference_that_is_gone_is_told_as_it_was() {
        let mut asked = 0;
        let (short, told) = shortest_difference(b"a\nb\n", "seen once".into(), |_| {
            asked += 1;
            Ok(())
        });
        assert_eq!((&short[..], &told[..]), (&b"a\nb\n"[..], "seen once"));
        assert!(asked < 20);
    }

    // Every step leaves less, so that no more than these are needed; a text that takes more stays long.
    #[test]
    fn steps_are_bounded() {
        let text: Vec<u8> = (0..32_768).map(|i| b'a' + (i % 26) as u8).collect();
        let mut asked = 0;
        let (short, _) = shortest_difference(&text, String::new(), |t| {
            asked += 1;
            let whole = t.len() > 30_000;
            whole.then_some(()).map_or(Ok(()), |_| Err(String::new()))
        });
        assert!(short.len() > 30_000 && short.len() < 32_768);
        assert!(asked <= STEPS + 1, "{asked}");
    }

    #[test]
    fn characters_stay_whole() {
        assert_eq!(shortest("aé漢\nb", |t| t.contains('漢')), "漢");
    }
}
