//! Whole texts: a text read into lent rooms, and its tree through the views of the tree room.
use crate::value::{Slot, slot};
use std::collections::BTreeMap;

/// `number` 0: accepted, with `made` values; else a refusal with its section and place.
#[repr(C)]
#[derive(Clone, Copy, Debug, PartialEq, Eq)]
pub struct Outcome {
    /// 0 where it is accepted, else the refusal.
    pub number: u32,
    /// The section of a refusal.
    pub section: u32,
    /// The place of a refusal.
    pub place: u32,
    /// How many values were made; 0 where it is refused.
    pub made: u32,
}

/// What hangs under the root has this parent, and what hangs under value number n has n + 2.
pub const ROOT: u16 = 1;

/// A value of the tree; strings and keys are decoded bytes.
#[derive(Clone, Debug, PartialEq, Eq)]
pub enum Value {
    /// A string's bytes.
    Str(Vec<u8>),
    /// An integer.
    Int(i64),
    /// A boolean.
    Bool(bool),
    /// Values in their order.
    Array(Vec<Value>),
    /// Values by key.
    Table(Table),
}

/// A table, in byte order of key.
pub type Table = BTreeMap<Vec<u8>, Value>;

mod sys {
    use super::Outcome;

    #[repr(C)]
    pub struct At {
        pub found: u32,
        pub number: usize,
    }

    unsafe extern "C" {
        pub fn preset_value_size() -> u32;
        pub fn document_read(
            text: *const u8,
            n: usize,
            store: *mut u8,
            store_room: usize,
            tree: *mut u8,
            tree_room: usize,
        ) -> Outcome;
        pub fn preset_tree_find(
            tree: *const u8,
            room: usize,
            store: *const u8,
            store_room: usize,
            made: usize,
            parent: u16,
            key: *const u8,
            key_n: usize,
        ) -> At;
        pub fn preset_tree_child(
            tree: *const u8,
            room: usize,
            made: usize,
            parent: u16,
            from: usize,
        ) -> At;
        pub fn preset_tree_next(
            tree: *const u8,
            room: usize,
            store: *const u8,
            store_room: usize,
            made: usize,
            parent: u16,
            begun: u32,
            after: usize,
        ) -> At;
    }
}

/// A value's bytes in the tree room.
pub fn value_size() -> u32 {
    // SAFETY: preset_value_size takes nothing and has no precondition.
    unsafe { sys::preset_value_size() }
}

/// Reads a text to its tree; what its keys mean is not looked at.
pub fn read(text: &[u8], store: &mut [u8], tree: &mut [u8]) -> Outcome {
    let (to, room) = (store.as_mut_ptr(), store.len());
    let (slots, places) = (tree.as_mut_ptr(), tree.len());
    // SAFETY: all three are live slices of their lengths and the borrow rules keep the lent rooms
    // apart from the text; document_read has no precondition.
    unsafe { sys::document_read(text.as_ptr(), text.len(), to, room, slots, places) }
}

fn number(at: sys::At) -> Option<usize> {
    (at.found != 0).then_some(at.number)
}

/// The newest of `made` values that hangs under the parent with that key.
pub fn find(tree: &[u8], store: &[u8], made: usize, parent: u16, key: &[u8]) -> Option<usize> {
    let (slots, places) = (tree.as_ptr(), tree.len());
    let (held, room) = (store.as_ptr(), store.len());
    // SAFETY: all three are live slices of their lengths, only read; preset_tree_find has no precondition.
    number(unsafe {
        sys::preset_tree_find(
            slots,
            places,
            held,
            room,
            made,
            parent,
            key.as_ptr(),
            key.len(),
        )
    })
}

/// The first of `made` values, from number `from` on, that hangs under the parent.
pub fn child(tree: &[u8], made: usize, parent: u16, from: usize) -> Option<usize> {
    // SAFETY: `tree` is a live slice of that length, only read; preset_tree_child has no precondition.
    number(unsafe { sys::preset_tree_child(tree.as_ptr(), tree.len(), made, parent, from) })
}

/// The first of `made` values under the parent in byte order of key, or the one after value number `after`.
pub fn next(
    tree: &[u8],
    store: &[u8],
    made: usize,
    parent: u16,
    after: Option<usize>,
) -> Option<usize> {
    let (slots, places) = (tree.as_ptr(), tree.len());
    let (held, room) = (store.as_ptr(), store.len());
    let (begun, last) = (u32::from(after.is_some()), after.unwrap_or(0));
    // SAFETY: both are live slices of their lengths, only read; preset_tree_next has no precondition.
    number(unsafe { sys::preset_tree_next(slots, places, held, room, made, parent, begun, last) })
}

/// The whole tree that an accepted text left, or what in it is against the rules of the rooms.
pub fn rebuild(tree: &[u8], store: &[u8], made: usize) -> Result<Table, String> {
    View { tree, store, made }.table(ROOT)
}

struct View<'a> {
    tree: &'a [u8],
    store: &'a [u8],
    made: usize,
}

impl View<'_> {
    // The values under a parent in the order of their numbers.
    fn children(&self, parent: u16) -> impl Iterator<Item = usize> {
        let after = move |from| child(self.tree, self.made, parent, from);
        std::iter::successors(after(0), move |n| after(n + 1))
    }

    // The newest value of each key, in byte order of key.
    fn entries(&self, parent: u16) -> impl Iterator<Item = usize> {
        let after = move |n| next(self.tree, self.store, self.made, parent, n);
        std::iter::successors(after(None), move |&n| after(Some(n)))
    }

    fn table(&self, parent: u16) -> Result<Table, String> {
        let mut out = Table::new();
        for n in self.entries(parent) {
            let slot = self.slot(n, parent)?;
            let key = self.part(slot.key as usize, slot.len as usize)?;
            if out.last_key_value().is_some_and(|(last, _)| **last >= *key) {
                return Err(format!("value {n}: its key does not rise"));
            }
            match find(self.tree, self.store, self.made, parent, key) {
                Some(newest) if newest == n => out.insert(key.to_vec(), self.value(n, slot)?),
                other => return Err(format!("value {n}: the newest of its key is {other:?}")),
            };
        }
        Ok(out)
    }

    // A child hangs where the view says it does.
    fn slot(&self, n: usize, parent: u16) -> Result<Slot, String> {
        let slot = slot(self.tree, n);
        if n < self.made && slot.parent == u32::from(parent) {
            Ok(slot)
        } else {
            Err(format!("value {n} is no child of {parent}: {slot:?}"))
        }
    }

    fn value(&self, n: usize, slot: Slot) -> Result<Value, String> {
        let own = n as u16 + 2;
        let (start, length) = (slot.data as usize % 65_536, slot.data as usize / 65_536);
        let wrong = || format!("value {n}: {slot:?}");
        match (slot.kind, slot.data) {
            (1, _) => Ok(Value::Str(self.part(start, length)?.to_vec())),
            (2, magnitude) => i64::try_from(magnitude)
                .map(Value::Int)
                .map_err(|_| wrong()),
            (3, bit @ 0..=1) => Ok(Value::Bool(bit == 1)),
            (4, 0) => self.items(own).map(Value::Array),
            (5, 0) => self.table(own).map(Value::Table),
            (6, magnitude) => 0i64
                .checked_sub_unsigned(magnitude)
                .map(Value::Int)
                .ok_or_else(wrong),
            _ => Err(wrong()),
        }
    }

    fn items(&self, parent: u16) -> Result<Vec<Value>, String> {
        let each = |n| self.value(n, self.slot(n, parent)?);
        self.children(parent).map(each).collect()
    }

    fn part(&self, start: usize, length: usize) -> Result<&[u8], String> {
        let part = start
            .checked_add(length)
            .and_then(|end| self.store.get(start..end));
        part.ok_or(format!("{length} bytes from {start} are not in the store"))
    }
}
