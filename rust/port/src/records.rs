//! Records: a preset read into lent rooms, and views of its records in them.
use crate::document::Outcome;

/// Where a text's bytes are. `kind` 0: it is absent; 1: `len` bytes of the store from `from` on;
/// 2: the lent name; 3: the fixed word number `word`; 4: as 1, with `.aic` after them.
#[repr(C)]
#[derive(Clone, Copy, Debug, Default, PartialEq, Eq)]
pub struct Bytes {
    /// 0 to 4.
    pub kind: u32,
    /// The fixed word's number.
    pub word: u32,
    /// Where it begins in the store.
    pub from: usize,
    /// How many bytes of the store it has.
    pub len: usize,
}

/// `kind` 0: absent; 1: `number`.
#[repr(C)]
#[derive(Clone, Copy, Debug, Default, PartialEq, Eq)]
pub struct Amount {
    /// 0 or 1.
    pub kind: u32,
    /// The number.
    pub number: u32,
}

/// `kind` 0: no feature; 1: the words of `len` bytes of the store from `from` on; 2: the items of
/// the array at place `from`.
#[repr(C)]
#[derive(Clone, Copy, Debug, Default, PartialEq, Eq)]
pub struct FeatureList {
    /// 0, 1 or 2.
    pub kind: u32,
    /// Where its text begins in the store, or the place of its array.
    pub from: usize,
    /// How many bytes its text has.
    pub len: usize,
}

/// `chip` 1: d13x; 2: d21x.
#[repr(C)]
#[derive(Clone, Copy, Debug, Default, PartialEq, Eq)]
pub struct BoardView {
    /// 1 where it is there, else 0.
    pub found: u32,
    /// 1 or 2.
    pub chip: u32,
    /// Its name.
    pub name: Bytes,
    /// The target triple that packages are built for.
    pub target: Bytes,
    /// The profile they are built with.
    pub profile: Bytes,
}

/// `media` 1: spi-nor; 2: spi-nand.
#[repr(C)]
#[derive(Clone, Copy, Debug, Default, PartialEq, Eq)]
pub struct ImageView {
    /// 1 where it is there, else 0.
    pub found: u32,
    /// 1 or 2.
    pub media: u32,
    /// The media's device number.
    pub media_dev_id: u32,
    /// The chip's word.
    pub platform: Bytes,
    /// The product's name.
    pub product: Bytes,
    /// The image's version.
    pub version: Bytes,
    /// The media's id.
    pub media_id: Bytes,
    /// The name of the application that a normal boot jumps to.
    pub app: Bytes,
}

/// Its name is `len` bytes of the store from `from` on.
#[repr(C)]
#[derive(Clone, Copy, Debug, Default, PartialEq, Eq)]
pub struct PartitionView {
    /// 1 where it is there, else 0.
    pub found: u32,
    /// Where it starts on the flash.
    pub offset: u32,
    /// How many bytes it has.
    pub size: u32,
    /// Where its name begins in the store.
    pub from: usize,
    /// How many bytes its name has.
    pub len: usize,
    /// 1 where no application may lie in it, else 0.
    pub locked: u32,
}

/// What a component is and what it is made from. `kind` 1: app; 2: pbp; 3: raw.
#[repr(C)]
#[derive(Clone, Copy, Debug, Default, PartialEq, Eq)]
pub struct HeadView {
    /// 1 where it is there, else 0.
    pub found: u32,
    /// 1, 2 or 3.
    pub kind: u32,
    /// Its name in the image.
    pub name: Bytes,
    /// The package that is built for it.
    pub package: Bytes,
    /// The binary's name where it is not the package's.
    pub bin: Bytes,
    /// The path of a finished file.
    pub file: Bytes,
    /// Its file name in the image.
    pub filename: Bytes,
}

/// What a component is built with and where it goes.
#[repr(C)]
#[derive(Clone, Copy, Debug, Default, PartialEq, Eq)]
pub struct RoleView {
    /// 1 where it is there, else 0.
    pub found: u32,
    /// The package's features.
    pub features: FeatureList,
    /// The features of `pbp_package`.
    pub pbp_features: FeatureList,
    /// The partition that it goes to, as a reference.
    pub partition: Bytes,
    /// Its attributes.
    pub attr: Bytes,
    /// Its attributes in the partition.
    pub target_attr: Bytes,
    /// Its file name in the partition.
    pub target_filename: Bytes,
}

/// What a component does at boot.
#[repr(C)]
#[derive(Clone, Copy, Debug, Default, PartialEq, Eq)]
pub struct BootView {
    /// 1 where it is there, else 0.
    pub found: u32,
    /// 1 where it runs from memory before the flash is written.
    pub updater: u32,
    /// Where an updater is loaded to.
    pub ram: Amount,
    /// The path of a finished PBP file.
    pub pbp: Bytes,
    /// The package that builds its PBP.
    pub pbp_package: Bytes,
    /// The path of a private file.
    pub private: Bytes,
}

/// How a component is loaded.
#[repr(C)]
#[derive(Clone, Copy, Debug, Default, PartialEq, Eq)]
pub struct LoadView {
    /// 1 where it is there, else 0.
    pub found: u32,
    /// 1 where a loader is appended after its PBP.
    pub with_ext: u32,
    /// Bytes kept free between the two.
    pub ext_reserve: u32,
    /// Where it is loaded to.
    pub load_address: Amount,
    /// Where it is entered.
    pub entry_point: Amount,
    /// Where it is entered, as an offset.
    pub entry_offset: Amount,
    /// The version in its header.
    pub header_version: Amount,
}

/// An application, by its number in byte order of key.
#[repr(C)]
#[derive(Clone, Copy, Debug, Default, PartialEq, Eq)]
pub struct ApplicationView {
    /// 1 where it is there, else 0.
    pub found: u32,
    /// Its key, which is its package.
    pub package: Bytes,
    /// Its name in the image.
    pub name: Bytes,
    /// The partition that it goes to.
    pub partition: Bytes,
    /// Its file name in the image.
    pub filename: Bytes,
    /// Its attributes.
    pub attr: Bytes,
    /// The package's features.
    pub features: FeatureList,
    /// Where it is loaded to.
    pub load_address: Amount,
    /// Where it is entered, as an offset.
    pub entry_offset: Amount,
}

/// How many entries the lists have.
#[repr(C)]
#[derive(Clone, Copy, Debug, Default, PartialEq, Eq)]
pub struct Counts {
    /// How many partitions.
    pub partitions: usize,
    /// How many components.
    pub components: usize,
    /// How many applications.
    pub applications: usize,
}

/// An item of a feature list: `len` bytes of the store from `from` on.
#[repr(C)]
#[derive(Clone, Copy, Debug, Default, PartialEq, Eq)]
pub struct FeatureView {
    /// 1 where it is there, else 0.
    pub found: u32,
    /// Where it begins in the store.
    pub from: usize,
    /// How many bytes it has.
    pub len: usize,
}

mod sys {
    use super::*;
    use crate::boundary::{from_text, of_rooms};

    from_text! {
        preset_read();
        preset_validate();
    }

    of_rooms! {
        preset_counts() -> Counts;
        preset_board(name: *const u8, name_n: usize) -> BoardView;
        preset_image() -> ImageView;
        preset_partition(i: usize) -> PartitionView;
        preset_component_head(i: usize) -> HeadView;
        preset_component_role(i: usize) -> RoleView;
        preset_component_boot(i: usize) -> BootView;
        preset_component_load(i: usize) -> LoadView;
        preset_application(i: usize) -> ApplicationView;
        preset_feature(
            kind: u32,
            from: usize,
            len: usize,
            begun: u32,
            last: usize,
            size: usize,
        ) -> FeatureView;
    }

    unsafe extern "C" {
        pub fn preset_word(word: u32, out: *mut u8, room: usize) -> usize;
    }
}

/// Reads a preset; `name` is the board's where the text names none.
pub fn read(text: &[u8], name: &[u8], store: &mut [u8], tree: &mut [u8]) -> Outcome {
    asked(sys::preset_read, text, name, store, tree)
}

/// The same, and refuses one that breaks a rule.
pub fn validate(text: &[u8], name: &[u8], store: &mut [u8], tree: &mut [u8]) -> Outcome {
    asked(sys::preset_validate, text, name, store, tree)
}

type Ask = unsafe extern "C" fn(
    *const u8,
    usize,
    *const u8,
    usize,
    *mut u8,
    usize,
    *mut u8,
    usize,
) -> Outcome;

fn asked(ask: Ask, text: &[u8], name: &[u8], store: &mut [u8], tree: &mut [u8]) -> Outcome {
    let (to, room) = (store.as_mut_ptr(), store.len());
    let (slots, places) = (tree.as_mut_ptr(), tree.len());
    let (from, n) = (text.as_ptr(), text.len());
    let (board, letters) = (name.as_ptr(), name.len());
    // SAFETY: all four are live slices of their lengths and the borrow rules keep the lent rooms
    // apart from the rest; neither of the two functions has a precondition.
    unsafe { ask(from, n, board, letters, to, room, slots, places) }
}

/// Enough for every fixed word.
pub const WORD_MIN: usize = 32;

/// Writes the fixed word of that number at the head of `out` and zeros after it, and says how
/// long the word is; 0, and zeros alone, where there is none or `out` is shorter.
pub fn word(number: u32, out: &mut [u8]) -> usize {
    // SAFETY: `out` is a live slice of that length; preset_word has no precondition.
    unsafe { sys::preset_word(number, out.as_mut_ptr(), out.len()) }
}

/// The two rooms with the count of values that reading left; any others are fine too.
#[derive(Clone, Copy, Debug)]
pub struct Rooms<'a> {
    /// The tree room.
    pub tree: &'a [u8],
    /// The text store.
    pub store: &'a [u8],
    /// How many values were made.
    pub made: usize,
}

// What every view takes first.
pub(crate) type Lent = (*const u8, usize, *const u8, usize, usize);

impl Rooms<'_> {
    pub(crate) fn lent(&self) -> Lent {
        let (tree, store) = (self.tree, self.store);
        let (slots, held) = (tree.as_ptr(), store.as_ptr());
        (slots, tree.len(), held, store.len(), self.made)
    }

    /// How many partitions, components and applications there are.
    pub fn counts(&self) -> Counts {
        let (tree, room, store, length, made) = self.lent();
        // SAFETY: two live slices of their lengths, only read; no precondition.
        unsafe { sys::preset_counts(tree, room, store, length, made) }
    }

    /// `name` as it was lent for reading.
    pub fn board(&self, name: &[u8]) -> BoardView {
        let (tree, room, store, length, made) = self.lent();
        let (board, letters) = (name.as_ptr(), name.len());
        // SAFETY: three live slices of their lengths, only read; no precondition.
        unsafe { sys::preset_board(tree, room, store, length, made, board, letters) }
    }

    /// The image's fields.
    pub fn image(&self) -> ImageView {
        let (tree, room, store, length, made) = self.lent();
        // SAFETY: two live slices of their lengths, only read; no precondition.
        unsafe { sys::preset_image(tree, room, store, length, made) }
    }

    /// Partition number `i`.
    pub fn partition(&self, i: usize) -> PartitionView {
        let (tree, room, store, length, made) = self.lent();
        // SAFETY: two live slices of their lengths, only read; no precondition.
        unsafe { sys::preset_partition(tree, room, store, length, made, i) }
    }

    /// What component number `i` is, and what it is made from.
    pub fn head(&self, i: usize) -> HeadView {
        let (tree, room, store, length, made) = self.lent();
        // SAFETY: two live slices of their lengths, only read; no precondition.
        unsafe { sys::preset_component_head(tree, room, store, length, made, i) }
    }

    /// Its features, and where it goes to.
    pub fn role(&self, i: usize) -> RoleView {
        let (tree, room, store, length, made) = self.lent();
        // SAFETY: two live slices of their lengths, only read; no precondition.
        unsafe { sys::preset_component_role(tree, room, store, length, made, i) }
    }

    /// Whether it is an updater, its memory, its PBP and its private file.
    pub fn boot(&self, i: usize) -> BootView {
        let (tree, room, store, length, made) = self.lent();
        // SAFETY: two live slices of their lengths, only read; no precondition.
        unsafe { sys::preset_component_boot(tree, room, store, length, made, i) }
    }

    /// Where it is loaded and entered.
    pub fn load(&self, i: usize) -> LoadView {
        let (tree, room, store, length, made) = self.lent();
        // SAFETY: two live slices of their lengths, only read; no precondition.
        unsafe { sys::preset_component_load(tree, room, store, length, made, i) }
    }

    /// Application number `i` in byte order of key.
    pub fn application(&self, i: usize) -> ApplicationView {
        let (tree, room, store, length, made) = self.lent();
        // SAFETY: two live slices of their lengths, only read; no precondition.
        unsafe { sys::preset_application(tree, room, store, length, made, i) }
    }

    /// The first item of a list in byte order, or the first above the bytes of the store that
    /// `after` gives by their start and length.
    pub fn feature(&self, list: FeatureList, after: Option<(usize, usize)>) -> FeatureView {
        let (tree, room, store, length, made) = self.lent();
        let FeatureList { kind, from, len } = list;
        let begun = u32::from(after.is_some());
        let (last, size) = after.unwrap_or((0, 0));
        // SAFETY: two live slices of their lengths, only read; no precondition.
        unsafe {
            sys::preset_feature(
                tree, room, store, length, made, kind, from, len, begun, last, size,
            )
        }
    }
}
