//! The port's answer to one text, with the scratch it was lent looked through.
use crate::harness::rooms::holds;
use crate::model::answer::text::{Answer, Joined, Refusal};
use port::text::{self, Lines, SCRATCH_MIN};

/// Asks every function of the text layer about a text of at most 32,768 bytes.
pub fn ask(text: &str) -> Result<Answer, String> {
    let bytes = text.as_bytes();
    let laid = laid(text)?;
    let (lines, refusal) = walk(laid.as_bytes())?;
    judged(bytes, &laid, lines.len(), refusal)?;
    let trim = text::trim(bytes);
    let scan = text::scan(bytes);
    Ok(Answer {
        trim: (trim.from, trim.end),
        kept: text::kept(bytes),
        scan: (scan.state, scan.opens, scan.closes),
        laid,
        lines,
        refusal,
    })
}

/// The kept bytes of each physical line, one line asked about at a time.
pub fn laid(text: &str) -> Result<String, String> {
    let mut out = String::with_capacity(text.len() + 1);
    for line in text.lines() {
        let kept = line.get(..text::kept(line.as_bytes()));
        out.push_str(kept.ok_or("kept bytes end beyond the line or inside a character")?);
        out.push('\n');
    }
    Ok(out)
}

/// The joined lines of laid-out text one after another, up to its end or a refusal.
pub fn walk(laid: &[u8]) -> Result<(Vec<Joined>, Option<Refusal>), String> {
    let (mut at, mut line) = (0, 1);
    let mut out = Vec::new();
    loop {
        let l = text::next(laid, at, line as u32);
        match l.kind {
            0 => return Ok((out, None)),
            3 | 4 => return Ok((out, Some((l.kind, l.line)))),
            1 if at <= l.from && l.from <= l.end && l.end < l.next && l.next <= laid.len() => {
                let joined = String::from_utf8(laid[l.from..l.end].to_vec());
                out.push((l.line, joined.map_err(|e| format!("joined line: {e}"))?));
                (at, line) = (l.next, l.next_line);
            }
            _ => return Err(format!("from {at}, line {line}: {l:?}")),
        }
    }
}

/// How many joined lines an accepted text has, as a host goes through them: laid and judged, then one after the other.
pub fn counted(text: &[u8], scratch: &mut [u8]) -> usize {
    let all = text::lines(text, scratch);
    assert_eq!(all.number, 0, "{all:?}");
    let laid = &scratch[..all.used];
    let (mut at, mut line, mut count) = (0, 1, 0);
    loop {
        let l = text::next(laid, at, line as u32);
        if l.kind != 1 {
            return count;
        }
        (at, line, count) = (l.next, l.next_line, count + 1);
    }
}

// The whole text at once must say what the walk says, and leave the scratch as promised.
fn judged(text: &[u8], laid: &str, count: usize, refusal: Option<Refusal>) -> Result<(), String> {
    let mut scratch = vec![0xAA; SCRATCH_MIN];
    let got = text::lines(text, &mut scratch);
    let (want, held) = match refusal {
        None => (accepted(count, laid.len()), laid),
        Some((number, place)) => (refused(number, place), ""),
    };
    if got != want {
        return Err(format!("whole text: {got:?}, line by line: {want:?}"));
    }
    holds(&scratch, held.as_bytes())
}

/// What `lines` says on accepting.
pub fn accepted(lines: usize, used: usize) -> Lines {
    let lines = lines as u32;
    Lines {
        number: 0,
        section: 0,
        place: 0,
        lines,
        used,
    }
}

/// What `lines` says on refusing.
pub fn refused(number: u32, place: usize) -> Lines {
    let place = place as u32;
    Lines {
        number,
        section: 0,
        place,
        lines: 0,
        used: 0,
    }
}
