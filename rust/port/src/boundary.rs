//! How the library's functions are declared, where many take the same.

/// What starts from a text and a lent name, takes more of its own, and leaves its answer in the
/// two rooms.
macro_rules! from_text {
    ($($entry:ident($($more:ident: $sort:ty),* $(,)?);)*) => {
        unsafe extern "C" {
            $(pub fn $entry(
                text: *const u8,
                n: usize,
                name: *const u8,
                name_n: usize,
                $($more: $sort,)*
                store: *mut u8,
                store_room: usize,
                tree: *mut u8,
                tree_room: usize,
            ) -> Outcome;)*
        }
    };
}

/// What looks at the two rooms and the count of values, and takes more of its own.
macro_rules! of_rooms {
    ($($view:ident($($more:ident: $sort:ty),* $(,)?) -> $shown:ty;)*) => {
        unsafe extern "C" {
            $(pub fn $view(
                tree: *const u8,
                room: usize,
                store: *const u8,
                store_room: usize,
                made: usize,
                $($more: $sort,)*
            ) -> $shown;)*
        }
    };
}

pub(crate) use {from_text, of_rooms};
