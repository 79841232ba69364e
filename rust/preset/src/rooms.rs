//! The rooms that the library is lent, owned for as long as they are looked at.
use crate::refusal::Refusal;
use port::document::Outcome;
use port::records::Rooms;
use port::value::{STORE_MIN, TREE_MIN};

/// What an accepted call left: the text store, the tree room and the count of values made.
pub(crate) struct Held {
    pub store: Vec<u8>,
    pub tree: Vec<u8>,
    pub made: usize,
}

impl Held {
    /// Lends new rooms to a call, store before tree.
    pub fn by(ask: impl FnOnce(&mut [u8], &mut [u8]) -> Outcome) -> Result<Held, Refusal> {
        let (mut store, mut tree) = (vec![0; STORE_MIN], vec![0; TREE_MIN]);
        let got = ask(&mut store, &mut tree);
        match got.number {
            0 => Ok(Held {
                store,
                tree,
                made: got.made as usize,
            }),
            number => Err(Refusal::of(number, got.section, got.place)),
        }
    }

    /// The same for views of records and plans.
    pub fn rooms(&self) -> Rooms<'_> {
        Rooms {
            tree: &self.tree,
            store: &self.store,
            made: self.made,
        }
    }
}

/// What the views of accepted rooms show. They are proved to keep their rules, so nothing else is met with the library
/// that `scripts/archive --prove` writes.
pub(crate) fn promised<T>(shown: Result<T, String>) -> T {
    shown.unwrap_or_else(|why| panic!("the linked library is not the proved one: {why}"))
}
