//! Planning: a preset read, held to the rules and planned, and views of the plan in the rooms.
use crate::document::Outcome;
use crate::records::{
    BootView, Bytes, FeatureList, HeadView, LoadView, PartitionView, RoleView, Rooms,
};

/// `kind` 0: there is none; 1: a package, its binary and its features; 2: a file.
#[repr(C)]
#[derive(Clone, Copy, Debug, Default, PartialEq, Eq)]
pub struct SourceView {
    /// 0, 1 or 2.
    pub kind: u32,
    /// The package.
    pub package: Bytes,
    /// The name of its binary.
    pub bin: Bytes,
    /// The features that it is built with.
    pub features: FeatureList,
    /// The path, as written.
    pub file: Bytes,
}

/// A package to build.
#[repr(C)]
#[derive(Clone, Copy, Debug, Default, PartialEq, Eq)]
pub struct BuildView {
    /// 1 where it is there, else 0.
    pub found: u32,
    /// The package.
    pub package: Bytes,
    /// The name of its binary.
    pub bin: Bytes,
    /// The features that it is built with.
    pub features: FeatureList,
}

/// How many components and builds a plan has.
#[repr(C)]
#[derive(Clone, Copy, Debug, Default, PartialEq, Eq)]
pub struct PlanCounts {
    /// How many components.
    pub components: usize,
    /// How many packages are to be built.
    pub builds: usize,
}

/// What goes with the boot chain: nothing where `app` is 0, else the application of the key.
#[derive(Clone, Copy, Debug)]
pub struct Selection<'a> {
    /// 0 for the boot chain, whatever the key.
    pub app: u32,
    /// The application's key.
    pub key: &'a [u8],
}

impl<'a> From<Option<&'a [u8]>> for Selection<'a> {
    fn from(key: Option<&'a [u8]>) -> Self {
        Selection {
            app: u32::from(key.is_some()),
            key: key.unwrap_or_default(),
        }
    }
}

mod sys {
    use super::*;
    use crate::boundary::{from_text, of_rooms};

    from_text! {
        preset_plan(app: u32, key: *const u8, key_n: usize);
    }

    // What shows entry number i of a plan is declared alike.
    macro_rules! of_entry {
        ($($view:ident -> $shown:ty;)*) => {
            of_rooms! {
                $($view(app: u32, key: *const u8, key_n: usize, i: usize) -> $shown;)*
            }
        };
    }
    of_entry! {
        preset_plan_head -> HeadView;
        preset_plan_role -> RoleView;
        preset_plan_boot -> BootView;
        preset_plan_load -> LoadView;
        preset_plan_source -> SourceView;
        preset_plan_pbp -> SourceView;
        preset_plan_partition -> PartitionView;
        preset_plan_build -> BuildView;
    }
    of_rooms! {
        preset_plan_counts(app: u32, key: *const u8, key_n: usize) -> PlanCounts;
        preset_plan_stem(
            name: *const u8,
            name_n: usize,
            app: u32,
            key: *const u8,
            key_n: usize,
        ) -> Bytes;
    }
}

/// Reads a preset, refuses one that breaks a rule, and plans what is selected.
pub fn plan(
    text: &[u8],
    name: &[u8],
    selection: Selection,
    store: &mut [u8],
    tree: &mut [u8],
) -> Outcome {
    let (to, room) = (store.as_mut_ptr(), store.len());
    let (slots, places) = (tree.as_mut_ptr(), tree.len());
    let (from, n) = (text.as_ptr(), text.len());
    let (board, letters) = (name.as_ptr(), name.len());
    let (app, key, size) = selection.lent();
    // SAFETY: all five are live slices of their lengths and the borrow rules keep the lent rooms
    // apart from the rest; preset_plan has no precondition.
    unsafe {
        sys::preset_plan(
            from, n, board, letters, app, key, size, to, room, slots, places,
        )
    }
}

impl Selection<'_> {
    fn lent(&self) -> (u32, *const u8, usize) {
        (self.app, self.key.as_ptr(), self.key.len())
    }
}

/// The rooms that planning left, with what was selected; any others are fine too.
#[derive(Clone, Copy, Debug)]
pub struct Planned<'a> {
    /// As planning left them.
    pub rooms: Rooms<'a>,
    /// What was planned.
    pub selection: Selection<'a>,
}

type OfEntry<V> = unsafe extern "C" fn(
    *const u8,
    usize,
    *const u8,
    usize,
    usize,
    u32,
    *const u8,
    usize,
    usize,
) -> V;

impl Planned<'_> {
    fn entry<V>(&self, view: OfEntry<V>, i: usize) -> V {
        let (tree, room, store, length, made) = self.rooms.lent();
        let (app, key, size) = self.selection.lent();
        // SAFETY: three live slices of their lengths, only read; none of the views that are handed
        // in below has a precondition.
        unsafe { view(tree, room, store, length, made, app, key, size, i) }
    }

    /// What component number `i` is, and what it is made from.
    pub fn head(&self, i: usize) -> HeadView {
        self.entry(sys::preset_plan_head, i)
    }

    /// Its features, and where it goes to.
    pub fn role(&self, i: usize) -> RoleView {
        self.entry(sys::preset_plan_role, i)
    }

    /// Whether it is an updater, its memory and its private file.
    pub fn boot(&self, i: usize) -> BootView {
        self.entry(sys::preset_plan_boot, i)
    }

    /// Where it is loaded and entered.
    pub fn load(&self, i: usize) -> LoadView {
        self.entry(sys::preset_plan_load, i)
    }

    /// The payload of component number `i`.
    pub fn source(&self, i: usize) -> SourceView {
        self.entry(sys::preset_plan_source, i)
    }

    /// Its PBP.
    pub fn pbp(&self, i: usize) -> SourceView {
        self.entry(sys::preset_plan_pbp, i)
    }

    /// The partition that its reference finds.
    pub fn partition(&self, i: usize) -> PartitionView {
        self.entry(sys::preset_plan_partition, i)
    }

    /// Build number `i`, in the order of first use.
    pub fn build(&self, i: usize) -> BuildView {
        self.entry(sys::preset_plan_build, i)
    }

    /// How many components and builds there are.
    pub fn counts(&self) -> PlanCounts {
        let (tree, room, store, length, made) = self.rooms.lent();
        let (app, key, size) = self.selection.lent();
        // SAFETY: three live slices of their lengths, only read; no precondition.
        unsafe { sys::preset_plan_counts(tree, room, store, length, made, app, key, size) }
    }

    /// `name` as it was lent for planning.
    pub fn stem(&self, name: &[u8]) -> Bytes {
        let (tree, room, store, length, made) = self.rooms.lent();
        let (board, letters) = (name.as_ptr(), name.len());
        let (app, key, size) = self.selection.lent();
        // SAFETY: four live slices of their lengths, only read; no precondition.
        unsafe {
            sys::preset_plan_stem(
                tree, room, store, length, made, board, letters, app, key, size,
            )
        }
    }
}
