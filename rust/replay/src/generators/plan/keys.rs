//! What is selected of a preset.
use crate::model::answer::records::{Preset, Read, Refusal};
use crate::model::plan::chosen;
use std::borrow::Cow;

// All where there are no more than so many, else the first, one between and the last: every view of a
// plan is called for each.
const FEW: usize = 8;

// The places of applications whose plans are looked at in every view.
fn looked_at(count: usize) -> Vec<usize> {
    if count <= FEW {
        (0..count).collect()
    } else {
        vec![0, count / 2, count - 1]
    }
}

/// Keys that are seldom or never declared: none at all, no characters, one that is begun or goes on,
/// an application's name, a package.
pub fn undeclared(p: &Preset) -> [Vec<u8>; 7] {
    let (first, last) = (p.apps.first_key_value(), p.apps.last_key_value());
    let last = last.map_or("k", |(key, _)| key).as_bytes();
    let name = first.map_or("board", |(_, app)| &app.name);
    let package = p.components.first().and_then(|c| c.package.as_deref());
    let all: [&[u8]; 7] = [
        b"",
        b"undeclared",
        b"\xFF",
        &last[..last.len().saturating_sub(1)],
        &[last, b"\0"].concat(),
        name.as_bytes(),
        package.unwrap_or("a/b").as_bytes(),
    ];
    all.map(<[u8]>::to_vec)
}

/// What is selected and how it is refused, where it is.
pub struct Answered {
    pub selected: Option<Vec<u8>>,
    pub refusal: Option<Refusal>,
    /// Answer and rooms alone are looked at, and no view is called.
    pub brief: bool,
}

impl Answered {
    fn whole(selected: Option<Vec<u8>>, refusal: Option<Refusal>) -> Self {
        Answered {
            selected,
            refusal,
            brief: false,
        }
    }

    /// The boot chain of a preset that is read and validated like this.
    pub fn boot_chain(read: &Read) -> Self {
        Answered::whole(None, read.as_ref().err().copied())
    }

    /// What is told of a preset that is read and validated like this.
    pub fn told<'a>(&self, read: &'a Read) -> Cow<'a, Read> {
        let refused = self.refusal.map(|refusal| Cow::Owned(Err(refusal)));
        refused.unwrap_or(Cow::Borrowed(read))
    }
}

/// Every selection with its answer, where a preset is read and validated like this: the boot chain,
/// then the declared applications, those first whose plans are not looked at, and two other keys, which
/// go by the text.
pub fn answers(read: &Read) -> Vec<Answered> {
    let answer = match read {
        Ok(answer) => answer,
        Err(refusal) => {
            let both = [None, Some(b"desk".to_vec())];
            return both.map(|key| Answered::whole(key, Some(*refusal))).into();
        }
    };
    let preset = &answer.preset;
    let told = |key: &[u8]| chosen(preset, Some(key)).err();
    let looked_at = looked_at(preset.apps.len());
    let mut all = vec![Answered::boot_chain(read)];
    all.extend(preset.apps.keys().enumerate().map(|(i, key)| Answered {
        selected: Some(key.clone().into_bytes()),
        refusal: told(key.as_bytes()),
        brief: !looked_at.contains(&i),
    }));
    all[1..].sort_by_key(|one| !one.brief);
    let mut others = undeclared(preset);
    others.rotate_left(answer.text.store.len() % 7);
    let declared = |key: &[u8]| preset.apps.keys().any(|own| own.as_bytes() == key);
    let others = others.into_iter().filter(|key| !declared(key)).take(2);
    all.extend(others.map(|key| {
        let refusal = told(&key);
        Answered::whole(Some(key), refusal)
    }));
    all
}
