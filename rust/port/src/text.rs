//! The text layer: trimming, UTF-8, comments, string and bracket state, joined lines.

/// Text over this length is refused with 1.
pub const TEXT_MAX: usize = 32_768;
/// The least scratch that `lines` takes: the longest text and the line end it may lack.
pub const SCRATCH_MIN: usize = 32_769;

/// A part of the bytes asked about, from the first to before the last.
#[repr(C)]
#[derive(Clone, Copy, Debug, PartialEq, Eq)]
pub struct Span {
    /// Its first byte.
    pub from: usize,
    /// The place after its last byte.
    pub end: usize,
}

/// The state after the last byte (0 outside a string, 1 inside, 2 inside after a backslash)
/// and the brackets outside strings.
#[repr(C)]
#[derive(Clone, Copy, Debug, PartialEq, Eq)]
pub struct Scanned {
    /// 0, 1 or 2.
    pub state: u8,
    /// How many `[` there are.
    pub opens: usize,
    /// How many `]` there are.
    pub closes: usize,
}

/// `number` 0: accepted, with `lines` joined lines and `used` bytes of scratch; else a refusal.
#[repr(C)]
#[derive(Clone, Copy, Debug, PartialEq, Eq)]
pub struct Lines {
    /// 0 where it is accepted, else the refusal.
    pub number: u32,
    /// The section of a refusal.
    pub section: u32,
    /// The place of a refusal.
    pub place: u32,
    /// How many joined lines there are.
    pub lines: u32,
    /// How many bytes of the scratch they take.
    pub used: usize,
}

/// `kind` 0: no line left; 1: a joined line; 3 or 4: that refusal at `line`.
#[repr(C)]
#[derive(Clone, Copy, Debug, PartialEq, Eq)]
pub struct Line {
    /// 0, 1, 3 or 4.
    pub kind: u32,
    /// The physical line, from 1, that it begins in.
    pub line: usize,
    /// Its first byte in the laid text.
    pub from: usize,
    /// The place after its last byte.
    pub end: usize,
    /// Where the line after it begins.
    pub next: usize,
    /// The physical line there.
    pub next_line: usize,
}

mod sys {
    use super::{Line, Lines, Scanned, Span};

    unsafe extern "C" {
        pub fn preset_text_trim(s: *const u8, n: usize) -> Span;
        pub fn preset_text_valid(s: *const u8, n: usize) -> bool;
        pub fn preset_text_kept(s: *const u8, n: usize) -> usize;
        pub fn preset_text_scan(s: *const u8, n: usize) -> Scanned;
        pub fn preset_text_lines(s: *const u8, n: usize, scratch: *mut u8, room: usize) -> Lines;
        pub fn preset_text_next(laid: *const u8, n: usize, at: usize, line: u32) -> Line;
    }
}

/// `s[from..end]` is `s` without White_Space at both ends.
pub fn trim(s: &[u8]) -> Span {
    // SAFETY: `s` is a live slice of that length, only read; preset_text_trim has no precondition.
    unsafe { sys::preset_text_trim(s.as_ptr(), s.len()) }
}

/// Whether `s` is UTF-8.
pub fn valid(s: &[u8]) -> bool {
    // SAFETY: `s` is a live slice of that length, only read; preset_text_valid has no precondition.
    unsafe { sys::preset_text_valid(s.as_ptr(), s.len()) }
}

/// The bytes of one physical line before its comment.
pub fn kept(line: &[u8]) -> usize {
    // SAFETY: `line` is a live slice of that length, only read; preset_text_kept has no precondition.
    unsafe { sys::preset_text_kept(line.as_ptr(), line.len()) }
}

/// The string state after `s` and its brackets outside strings.
pub fn scan(s: &[u8]) -> Scanned {
    // SAFETY: `s` is a live slice of that length, only read; preset_text_scan has no precondition.
    unsafe { sys::preset_text_scan(s.as_ptr(), s.len()) }
}

/// Lays the kept bytes of every physical line into `scratch` and judges the joined lines.
pub fn lines(text: &[u8], scratch: &mut [u8]) -> Lines {
    let (to, room) = (scratch.as_mut_ptr(), scratch.len());
    // SAFETY: both are live slices of their lengths and the borrow rules keep them apart;
    // preset_text_lines has no precondition.
    unsafe { sys::preset_text_lines(text.as_ptr(), text.len(), to, room) }
}

/// The joined line that starts at `at`, a place between joined lines; the first is 0, line 1.
pub fn next(laid: &[u8], at: usize, line: u32) -> Line {
    // SAFETY: `laid` is a live slice of that length, only read; preset_text_next has no precondition.
    unsafe { sys::preset_text_next(laid.as_ptr(), laid.len(), at, line) }
}
