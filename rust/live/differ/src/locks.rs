//! Texts with locks, which the original does not know, and the same texts without them.
use preset::{Preset, TEXT_MAX};
use replay::generators::records::spelling::LOCK;
use replay::generators::tree;
use replay::model::answer::document::{Table, Value};
use replay::model::answer::records::{Read, Refusal};
use replay::model::document;

/// What is told of a text; where it has locks, also the text without them, and what is told of that.
pub struct Both<T> {
    pub told: T,
    pub without: Option<(Vec<u8>, T)>,
}

/// By `agreed`, which asks the original too; a text with locks is left out of that, and `defined` tells of it, once
/// `agreed` has told of the text without them.
pub fn both<T>(
    text: &[u8],
    agreed: impl Fn(&[u8]) -> Result<T, String>,
    defined: impl Fn(&[u8]) -> T,
) -> Result<Both<T>, String> {
    let Some(root) = unlocked(text) else {
        let (told, without) = (agreed(text)?, None);
        return Ok(Both { told, without });
    };
    let open = tree::text(&root).into_bytes();
    // written anew it may be longer than a text may be
    if open.len() > TEXT_MAX {
        let (told, without) = (defined(text), None);
        return Ok(Both { told, without });
    }
    if !document::read(&open).is_ok_and(|read| read.root == root) {
        return Err("the text without its locks is not read as its tree".into());
    }
    let without = agreed(&open).map_err(|e| format!("without its locks, {e}"))?;
    Ok(Both {
        told: defined(text),
        without: Some((open, without)),
    })
}

/// The tree of a text without its locks, where it has any: in entries of the list of partitions that is read.
pub fn unlocked(text: &[u8]) -> Option<Table> {
    let mut root = document::read(text).ok()?.root;
    let mut lists = ["partition", "partitions"].into_iter();
    let list = lists.find(|key| root.contains_key(key.as_bytes()))?;
    let Some(Value::Array(items)) = root.get_mut(list.as_bytes()) else {
        return None;
    };
    let mut found = false;
    for item in items {
        if let Value::Table(entry) = item {
            found |= entry.remove(LOCK.0.as_bytes()).is_some();
        }
    }
    found.then_some(root)
}

/// The refusal that is told of a text and not of the same without its locks.
pub fn for_lock<T>(told: &Result<T, Refusal>, without: &Result<T, Refusal>) -> Option<Refusal> {
    let [own, other] = [told, without].map(|told| told.as_ref().err().copied());
    own.filter(|_| own != other)
}

/// Nothing but the records of partitions and the refusals 20 and 67 goes by locks.
pub fn nothing_else(told: &Read, without: &Read) -> Result<(), String> {
    let same = match (told, without) {
        (Ok(own), Ok(open)) => opened(own.preset.clone()) == open.preset,
        (Err(_), _) => {
            let own = for_lock(told, without).map(|e| (e.number, e.section));
            matches!(own, None | Some((20, 3) | (67, 5)))
        }
        (Ok(_), Err(_)) => false,
    };
    same.then_some(())
        .ok_or_else(|| format!("more goes by its locks: {told:?}, without them {without:?}"))
}

fn opened(mut preset: Preset) -> Preset {
    preset.partitions.iter_mut().for_each(|p| p.locked = false);
    preset
}
