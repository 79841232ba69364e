//! Memory to lend: noise in it, guard bytes around it, and a protected page right after it.
use port::text::TEXT_MAX;
use port::value::{STORE_MIN, TREE_MIN};
use std::ffi::{c_int, c_long, c_void};

unsafe extern "C" {
    fn mmap(
        at: *mut c_void,
        n: usize,
        access: c_int,
        how: c_int,
        file: c_int,
        from: i64,
    ) -> *mut c_void;
    fn mprotect(at: *mut c_void, n: usize, access: c_int) -> c_int;
    fn munmap(at: *mut c_void, n: usize) -> c_int;
    fn sysconf(name: c_int) -> c_long;
}

// Linux: PROT_NONE, PROT_READ | PROT_WRITE, MAP_PRIVATE | MAP_ANONYMOUS, _SC_PAGESIZE.
const NO_ACCESS: c_int = 0;
const ALL_ACCESS: c_int = 3;
const OWN_MEMORY: c_int = 0x22;
const PAGE_SIZE: c_int = 30;

/// Bytes between two pages that nobody may touch.
pub struct Fenced {
    base: *mut c_void,
    page: usize,
    inside: usize,
}

impl Fenced {
    /// At least `least` bytes.
    pub fn new(least: usize) -> Self {
        // SAFETY: fresh memory is asked for and only its own first and last page are closed.
        unsafe {
            let page = sysconf(PAGE_SIZE) as usize;
            let inside = least.div_ceil(page) * page;
            let null = std::ptr::null_mut();
            let base = mmap(null, inside + 2 * page, ALL_ACCESS, OWN_MEMORY, -1, 0);
            assert!(base as isize != -1, "mmap");
            assert_eq!(mprotect(base, page, NO_ACCESS), 0, "mprotect");
            let last = base.byte_add(page + inside);
            assert_eq!(mprotect(last, page, NO_ACCESS), 0, "mprotect");
            Fenced { base, page, inside }
        }
    }

    /// All of them; the protected page follows the last.
    pub fn bytes(&mut self) -> &mut [u8] {
        // SAFETY: these bytes are mapped for reading and writing, and borrowed with self.
        unsafe {
            let first = self.base.byte_add(self.page).cast();
            std::slice::from_raw_parts_mut(first, self.inside)
        }
    }

    /// `text` copied so that it ends at the protected page.
    pub fn ending(&mut self, text: &[u8]) -> &[u8] {
        let from = self.inside - text.len();
        let part = &mut self.bytes()[from..];
        part.copy_from_slice(text);
        part
    }
}

impl Drop for Fenced {
    fn drop(&mut self) {
        // SAFETY: the whole mapping of `new`, which nobody borrows any more.
        unsafe { munmap(self.base, self.inside + 2 * self.page) };
    }
}

const GUARD: [u8; 64] = [0x5A; 64];

// Noise goes by words; what is left of a room after its last word holds this byte.
const LAST: u8 = 0xAA;

fn noise(seed: u64) -> impl Iterator<Item = [u8; 8]> {
    let word = move |n: u64| seed.wrapping_add(n.wrapping_mul(0x9E37_79B9_7F4A_7C15));
    (1..).map(move |n| word(n).to_le_bytes())
}

/// A room with guard bytes before it; after it guard bytes, or the protected page.
pub struct Room {
    memory: Fenced,
    from: usize,
    end: usize,
}

impl Room {
    /// Ends at the protected page.
    pub fn exact(length: usize) -> Self {
        Room::before(length, 0)
    }

    /// Has guard bytes after it too.
    pub fn guarded(length: usize) -> Self {
        Room::before(length, GUARD.len())
    }

    /// Ends at a protected page, or begins after one, or both where its length is of whole pages; what else
    /// there is between these pages is guard bytes.
    pub fn beside(length: usize, ending: bool) -> Self {
        let mut memory = Fenced::new(length);
        memory.bytes().fill(GUARD[0]);
        let spare = memory.inside - length;
        let from = if ending { spare } else { 0 };
        let end = from + length;
        Room { memory, from, end }
    }

    fn before(length: usize, after: usize) -> Self {
        let mut memory = Fenced::new(GUARD.len() + length + after);
        memory.bytes().fill(GUARD[0]);
        let end = memory.inside - after;
        let from = end - length;
        Room { memory, from, end }
    }

    /// Makes it another length, no longer than it was at first, that ends at the same place.
    pub fn fit(&mut self, length: usize) {
        self.from = self.end - length;
        let before = self.from - GUARD.len()..self.from;
        self.memory.bytes()[before].copy_from_slice(&GUARD);
    }

    /// Fills the room with noise. Word by word: an emulator copies long parts byte by byte.
    pub fn fill(&mut self, seed: u64) {
        let (words, rest) = self.bytes().as_chunks_mut::<8>();
        for (word, noise) in words.iter_mut().zip(noise(seed)) {
            *word = noise;
        }
        rest.fill(LAST);
    }

    /// Whether the room is from that byte on as `fill` left it.
    pub fn filled(&mut self, seed: u64, from: usize) -> bool {
        let (words, rest) = self.bytes().as_chunks::<8>();
        let mut each = words.iter().zip(noise(seed)).skip(from / 8);
        // of the word in which that byte stands only what is after it
        let after = from % 8;
        let first = each.next();
        let part = first.is_none_or(|(word, noise)| word[after..] == noise[after..]);
        let last = from.saturating_sub(8 * words.len());
        part && each.all(|(word, noise)| *word == noise)
            && rest.iter().skip(last).all(|&b| b == LAST)
    }

    pub fn bytes(&mut self) -> &mut [u8] {
        let (from, end) = (self.from, self.end);
        &mut self.memory.bytes()[from..end]
    }

    /// Whether the guard bytes stand as they were.
    pub fn kept(&mut self) -> bool {
        let (from, end) = (self.from, self.end);
        let all = self.memory.bytes();
        let before = &all[from.saturating_sub(GUARD.len())..from];
        let after = &all[end..all.len().min(end + GUARD.len())];
        *before == GUARD[..before.len()] && *after == GUARD[..after.len()]
    }
}

/// The two rooms of one reading.
pub struct Rooms {
    pub store: Room,
    pub tree: Room,
}

/// The rooms by number: as small as can be, longer, and one of the two a byte too short.
pub const EXACT: usize = 0;
pub const LONG: usize = 1;
pub const SHORT: [usize; 2] = [2, 3];

/// Texts over the limit are lent up to this length.
pub const TEXT_ROOM: usize = TEXT_MAX + 4_096;

impl Rooms {
    /// Every sort of rooms.
    pub fn all() -> [Rooms; 4] {
        let exact = |store, tree| Rooms {
            store: Room::exact(store),
            tree: Room::exact(tree),
        };
        let long = Rooms {
            store: Room::guarded(STORE_MIN + 4_321),
            tree: Room::guarded(TREE_MIN + 1_234),
        };
        [
            exact(STORE_MIN, TREE_MIN),
            long,
            exact(STORE_MIN - 1, TREE_MIN),
            exact(STORE_MIN, TREE_MIN - 1),
        ]
    }

    /// Fills both with noise, and looks at the bytes beside them once `read` is done.
    pub fn reading<T>(
        &mut self,
        noise: u64,
        read: impl FnOnce(&mut [u8], &mut [u8]) -> T,
    ) -> Result<T, String> {
        self.store.fill(noise);
        self.tree.fill(noise);
        let got = read(self.store.bytes(), self.tree.bytes());
        if self.store.kept() && self.tree.kept() {
            Ok(got)
        } else {
            Err("bytes beside the rooms were changed".into())
        }
    }
}

/// A lent room begins with `held` and is zero to its end.
pub fn holds(room: &[u8], held: &[u8]) -> Result<(), String> {
    let Some(rest) = room.strip_prefix(held) else {
        return Err("the room does not begin with what it should hold".into());
    };
    // words of 64 bytes, since this is done after every text
    let (chunks, tail) = rest.as_chunks::<64>();
    if chunks.iter().all(zero) && tail.iter().all(|&b| b == 0) {
        Ok(())
    } else {
        Err("the room is not zero to its end".into())
    }
}

fn zero(chunk: &[u8; 64]) -> bool {
    let (words, _) = chunk.as_chunks::<8>();
    words.iter().fold(0, |a, &w| a | u64::from_ne_bytes(w)) == 0
}
