//! The listing: a preset read, held to the rules, its boot chain planned, and the lines that 01 prints.

/// `number` 0: accepted, with the lines in `written` bytes of the output; else a refusal with its
/// section and place.
#[repr(C)]
#[derive(Clone, Copy, Debug, Default, PartialEq, Eq)]
pub struct Listed {
    /// 0 where it is accepted, else the refusal.
    pub number: u32,
    /// The section of a refusal.
    pub section: u32,
    /// The place of a refusal.
    pub place: u32,
    /// How many bytes of the output are lines; 0 where it is refused.
    pub written: u32,
}

/// The least output that `list` takes for a name that is lent: each byte of it may be printed as two.
pub fn out_min(name: &[u8]) -> usize {
    142_848 + 2 * name.len()
}

mod sys {
    use super::Listed;

    unsafe extern "C" {
        pub fn preset_listing(
            text: *const u8,
            n: usize,
            name: *const u8,
            name_n: usize,
            store: *mut u8,
            store_room: usize,
            tree: *mut u8,
            tree_room: usize,
            out: *mut u8,
            out_room: usize,
        ) -> Listed;
    }
}

/// Plans a preset's boot chain and writes its lines, names in quotes, at the head of `out`, which stays
/// as it is after them. A refusal leaves all three rooms zero.
pub fn list(text: &[u8], name: &[u8], store: &mut [u8], tree: &mut [u8], out: &mut [u8]) -> Listed {
    let (to, room) = (store.as_mut_ptr(), store.len());
    let (slots, places) = (tree.as_mut_ptr(), tree.len());
    let (page, length) = (out.as_mut_ptr(), out.len());
    let (from, n) = (text.as_ptr(), text.len());
    let (board, letters) = (name.as_ptr(), name.len());
    // SAFETY: all five are live slices of their lengths and the borrow rules keep the lent rooms
    // apart from the rest; preset_listing has no precondition.
    unsafe {
        sys::preset_listing(
            from, n, board, letters, to, room, slots, places, page, length,
        )
    }
}
