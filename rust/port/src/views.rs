//! What views show, of whatever record: whether it is there, its numbers, and the bytes of its texts.
use crate::plans::BuildView;
use crate::records::{
    Amount, ApplicationView, BoardView, BootView, Bytes, FeatureList, FeatureView, HeadView,
    ImageView, LoadView, PartitionView, RoleView, Rooms, WORD_MIN, word,
};
use std::fmt::Debug;

/// A view says whether what it shows is there.
pub trait View: Copy + Debug + Default + PartialEq {
    /// 1 where it is, else 0.
    fn found(&self) -> u32;
}

macro_rules! views {
    ($($view:ty),*) => {
        $(impl View for $view {
            fn found(&self) -> u32 {
                self.found
            }
        })*
    };
}

views!(
    BoardView,
    ImageView,
    PartitionView,
    HeadView,
    RoleView,
    BootView,
    LoadView,
    ApplicationView,
    FeatureView,
    BuildView
);

/// What is there; nothing, where all of the view is zero.
pub fn seen<V: View>(view: V) -> Result<Option<V>, String> {
    match view.found() {
        1 => Ok(Some(view)),
        0 if view == V::default() => Ok(None),
        _ => Err(format!("neither found nor zero: {view:?}")),
    }
}

/// As many entries as were counted, and none after them.
pub fn all<T>(
    count: usize,
    most: usize,
    entry: impl Fn(usize) -> Result<Option<T>, String>,
) -> Result<Vec<T>, String> {
    if count > most {
        return Err(format!("{count} entries"));
    }
    let each = (0..count).map(|i| entry(i)?.ok_or(format!("entry {i} of {count} is missing")));
    let all = each.collect::<Result<_, _>>()?;
    match entry(count)? {
        None => Ok(all),
        Some(_) => Err(format!("more than the {count} entries that were counted")),
    }
}

/// A field that is 0 or 1.
pub fn flag(number: u32) -> Result<bool, String> {
    match number {
        0 | 1 => Ok(number == 1),
        _ => Err(format!("{number} is neither true nor false")),
    }
}

/// A number that may be absent.
pub fn amount(a: Amount) -> Result<Option<u32>, String> {
    match (a.kind, a.number) {
        (0, 0) => Ok(None),
        (1, number) => Ok(Some(number)),
        _ => Err(format!("{a:?}")),
    }
}

fn fixed(number: u32) -> Result<Vec<u8>, String> {
    let mut out = [0xAA; WORD_MIN];
    match word(number, &mut out) {
        length @ 1..=WORD_MIN => Ok(out[..length].to_vec()),
        length => Err(format!("word {number} has {length} bytes")),
    }
}

// The number of the fixed word that kind 4 puts after its bytes.
const AIC: u32 = 17;

impl Rooms<'_> {
    /// That many bytes of the store.
    pub fn part(&self, from: usize, len: usize) -> Result<&[u8], String> {
        let part = from
            .checked_add(len)
            .and_then(|end| self.store.get(from..end));
        part.ok_or(format!("{len} bytes from {from} are not in the store"))
    }

    /// The bytes of a text that is no name of a board; what its kind does not use is zero.
    pub fn maybe(&self, b: Bytes) -> Result<Option<Vec<u8>>, String> {
        match (b.kind, b.word, b.from, b.len) {
            (0, 0, 0, 0) => Ok(None),
            (1, 0, from, len) => Ok(Some(self.part(from, len)?.to_vec())),
            (3, word, 0, 0) => fixed(word).map(Some),
            (4, 0, from, len) => Ok(Some([self.part(from, len)?, &fixed(AIC)?].concat())),
            _ => Err(format!("{b:?}")),
        }
    }

    /// The same of a text that is always there.
    pub fn text(&self, b: Bytes) -> Result<Vec<u8>, String> {
        self.maybe(b)?.ok_or("a text is absent".into())
    }

    /// The same of a text that may be the lent name.
    pub fn text_or_name(&self, b: Bytes, name: &[u8]) -> Result<Vec<u8>, String> {
        match (b.kind, b.word, b.from, b.len) {
            (2, 0, 0, 0) => Ok(name.to_vec()),
            _ => self.text(b),
        }
    }

    /// The items of a list one after the other; each above the last, so that the walk ends.
    pub fn features(&self, list: FeatureList) -> Result<Vec<Vec<u8>>, String> {
        if !matches!(
            (list.kind, list.from, list.len),
            (0, 0, 0) | (1, ..) | (2, _, 0)
        ) {
            return Err(format!("{list:?}"));
        }
        let (mut out, mut after) = (Vec::<Vec<u8>>::new(), None);
        while let Some(item) = seen(self.feature(list, after))? {
            let bytes = self.part(item.from, item.len)?;
            if out.last().is_some_and(|last| **last >= *bytes) {
                return Err(format!("{list:?}: its items do not rise"));
            }
            out.push(bytes.to_vec());
            after = Some((item.from, item.len));
        }
        Ok(out)
    }
}
