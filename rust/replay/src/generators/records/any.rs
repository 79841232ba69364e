//! Rooms to look at: of noise, and such as a text leaves whatever its records are.
use crate::generators::random::Rng;
use port::document;
use port::records::Rooms;
use port::value::{SLOT, STORE_MIN, TREE_MIN};

/// Rooms that no text was read into, half of them tidy, and then the same with counts of values that
/// they have not got.
pub fn any_rooms(
    seed: u64,
    mut look: impl FnMut(Rooms) -> Result<(), String>,
    mut short: impl FnMut(Rooms) -> Result<(), String>,
) -> Result<(), String> {
    let mut r = Rng::new(seed);
    let store: Vec<u8> = (0..STORE_MIN).map(|_| r.draw() as u8).collect();
    for round in 0..200 {
        let mut tree: Vec<u8> = (0..20 * SLOT).map(|_| r.draw() as u8).collect();
        if round % 2 == 0 {
            tidied(&mut r, &mut tree);
        }
        let tree = &tree[..];
        let told = |made, e| format!("round {round}, {made} values: {e}");
        for made in [0, 1, 7, 20] {
            let store = &store[..[0, 1, 300, STORE_MIN][r.below(4)]];
            look(Rooms { tree, store, made }).map_err(|e| told(made, e))?;
        }
        for made in [21, 2_048, usize::MAX / SLOT, usize::MAX] {
            let store = &store;
            short(Rooms { tree, store, made }).map_err(|e| told(made, e))?;
        }
    }
    Ok(())
}

// Kinds, parents and parts of the store as they might be.
fn tidied(r: &mut Rng, tree: &mut [u8]) {
    for slot in tree.chunks_mut(SLOT) {
        let near = [
            r.below(8),
            r.below(24),
            r.below(300),
            r.below(4),
            r.below(300),
            r.below(4),
        ];
        let [kind, parent, key, length, from, size] = near;
        slot.fill(0);
        slot[0] = kind as u8;
        slot[2] = parent as u8;
        slot[4..6].copy_from_slice(&(key as u16).to_le_bytes());
        slot[6] = length as u8;
        slot[8..10].copy_from_slice(&(from as u16).to_le_bytes());
        slot[10] = size as u8;
    }
}

/// The rooms of the text by the reader of trees, which leaves the tree of any good text; its count of
/// values.
pub fn filled(text: &[u8]) -> Option<(Vec<u8>, Vec<u8>, usize)> {
    let (mut store, mut tree) = (vec![0xAA; STORE_MIN], vec![0xAA; TREE_MIN]);
    let got = document::read(text, &mut store, &mut tree);
    (got.number == 0).then_some((store, tree, got.made as usize))
}

/// Some bytes of a room replaced by others, mostly small.
pub fn damaged(r: &mut Rng, room: &mut [u8]) {
    for _ in 0..1 + r.below(6) {
        let at = r.below(room.len());
        room[at] = match r.below(3) {
            0 => r.draw() as u8,
            _ => r.below(8) as u8,
        };
    }
}
