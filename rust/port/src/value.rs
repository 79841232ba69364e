//! Integers, strings, keys and values, decoded into lent rooms.

/// The least text store that `read` takes.
pub const STORE_MIN: usize = 32_768;
/// A value's bytes in the tree room.
pub const SLOT: usize = 32;
/// The most values that are made.
pub const VALUES_MAX: usize = 2_048;
/// The least tree room that `read` takes.
pub const TREE_MIN: usize = SLOT * VALUES_MAX;
/// The most segments of a key.
pub const SEGMENTS_MAX: usize = 16;
/// The most arrays inside one another.
pub const ARRAYS_MAX: usize = 16;

/// `number` 0: this integer; else 12.
#[derive(Clone, Copy, Debug, PartialEq, Eq)]
pub struct Number {
    /// 0, or 12 where it is no integer.
    pub number: u32,
    /// The integer.
    pub value: i64,
}

/// `number` 0: a string over `used` bytes with its closing quote, decoded to `written` bytes;
/// 8 with the place of the backslash, 9 or 17.
#[repr(C)]
#[derive(Clone, Copy, Debug, PartialEq, Eq)]
pub struct Decoded {
    /// 0, 8, 9 or 17.
    pub number: u32,
    /// How many bytes it takes, with its closing quote.
    pub used: usize,
    /// How many bytes were decoded.
    pub written: usize,
    /// The backslash's place, for 8.
    pub at: usize,
}

/// `number` 0: `count` segments in `used` bytes of the store; else a refusal.
#[repr(C)]
#[derive(Clone, Copy, Debug, PartialEq, Eq)]
pub struct Segments {
    /// 0, 7, 8, 9, 15 or 17.
    pub number: u32,
    /// How many segments there are.
    pub count: usize,
    /// How many bytes of the store they take.
    pub used: usize,
}

/// `number` 0: `made` values, and their strings in `used` bytes of the store; else a refusal.
#[repr(C)]
#[derive(Clone, Copy, Debug, PartialEq, Eq)]
pub struct ValueRead {
    /// 0, or the refusal.
    pub number: u32,
    /// How many bytes of the store are taken.
    pub used: usize,
    /// How many values were made.
    pub made: usize,
}

/// A value of the tree room. `kind` 1 string, 2 integer, 3 boolean, 4 array, 5 table, 6 integer
/// with a minus; `parent` 0 for the outermost, n + 2 for an item of value number n; `data` a
/// string's start in the store and 65,536 times its length, an integer's magnitude, a boolean's 0
/// or 1, else 0.
#[repr(C)]
#[derive(Clone, Copy, Debug, PartialEq, Eq)]
pub struct Slot {
    /// 0 to 6.
    pub kind: u32,
    /// What it hangs under.
    pub parent: u32,
    /// Where its key begins in the store.
    pub key: u32,
    /// How many bytes its key has.
    pub len: u32,
    /// A string's place, an integer's magnitude or a boolean.
    pub data: u64,
}

mod sys {
    use super::{Decoded, Segments, Slot, ValueRead};

    /// An integer by sign and magnitude.
    #[repr(C)]
    pub struct Signed {
        pub number: u32,
        pub negative: bool,
        pub magnitude: u64,
    }

    unsafe extern "C" {
        pub fn preset_value_int(s: *const u8, n: usize) -> Signed;
        pub fn preset_value_string(s: *const u8, n: usize, out: *mut u8, room: usize) -> Decoded;
        pub fn preset_value_key(s: *const u8, n: usize, store: *mut u8, room: usize) -> Segments;
        pub fn preset_value_key_end(
            s: *const u8,
            n: usize,
            store: *mut u8,
            room: usize,
            i: usize,
        ) -> usize;
        pub fn preset_value_read(
            s: *const u8,
            n: usize,
            store: *mut u8,
            store_room: usize,
            tree: *mut u8,
            tree_room: usize,
        ) -> ValueRead;
        pub fn preset_tree_slot(tree: *const u8, room: usize, n: usize) -> Slot;
    }
}

/// The integer that `s` is, taken as it stands: white space is not trimmed.
pub fn int(s: &[u8]) -> Number {
    // SAFETY: `s` is a live slice of that length, only read; preset_value_int has no precondition.
    let got = unsafe { sys::preset_value_int(s.as_ptr(), s.len()) };
    let value = if got.negative {
        got.magnitude.wrapping_neg() as i64
    } else {
        got.magnitude as i64
    };
    Number {
        number: got.number,
        value,
    }
}

/// Decodes the string whose opening quote stands before `s`.
pub fn string(s: &[u8], out: &mut [u8]) -> Decoded {
    let (to, room) = (out.as_mut_ptr(), out.len());
    // SAFETY: both are live slices of their lengths and the borrow rules keep them apart;
    // preset_value_string has no precondition.
    unsafe { sys::preset_value_string(s.as_ptr(), s.len(), to, room) }
}

/// Decodes a key's segments one after the other into `store`.
pub fn key(s: &[u8], store: &mut [u8]) -> Segments {
    let (to, room) = (store.as_mut_ptr(), store.len());
    // SAFETY: both are live slices of their lengths and the borrow rules keep them apart;
    // preset_value_key has no precondition.
    unsafe { sys::preset_value_key(s.as_ptr(), s.len(), to, room) }
}

/// Where segment `i` of a key ends among its bytes, 0 where there is none; `store` is zero then.
pub fn key_end(s: &[u8], store: &mut [u8], i: usize) -> usize {
    let (to, room) = (store.as_mut_ptr(), store.len());
    // SAFETY: both are live slices of their lengths and the borrow rules keep them apart;
    // preset_value_key_end has no precondition.
    unsafe { sys::preset_value_key_end(s.as_ptr(), s.len(), to, room, i) }
}

/// Reads a value: its strings into `store`, its values into `tree`, in reading order.
pub fn read(s: &[u8], store: &mut [u8], tree: &mut [u8]) -> ValueRead {
    let (to, room) = (store.as_mut_ptr(), store.len());
    let (slots, places) = (tree.as_mut_ptr(), tree.len());
    // SAFETY: all three are live slices of their lengths and the borrow rules keep them apart;
    // preset_value_read has no precondition.
    unsafe { sys::preset_value_read(s.as_ptr(), s.len(), to, room, slots, places) }
}

/// Value number `n` of a tree room; all zero where the room is too short for it.
pub fn slot(tree: &[u8], n: usize) -> Slot {
    // SAFETY: `tree` is a live slice of that length, only read; preset_tree_slot has no precondition.
    unsafe { sys::preset_tree_slot(tree.as_ptr(), tree.len(), n) }
}
