//! The port's answer to a preset, with the rooms it was lent looked through.
use super::document::held;
use crate::harness::rooms::holds;
use crate::harness::rooms::{EXACT, Fenced, LONG, Rooms, SHORT, TEXT_ROOM};
use crate::harness::vector::records::rows;
use crate::model::answer::records::{Preset, Read, Refusal, outcome};
use crate::model::records::written;
use port::document::{self, Outcome};
use port::plans::Selection;
use port::records::{self, FeatureList};
use port::value::{STORE_MIN, TREE_MIN};
use port::views::{View, seen};
use preset::{ComponentSpec, owned};

/// The records, or the refusal's number.
pub type Heard = Result<Preset, u32>;

/// A text, the name that is lent, and what is selected where a plan is asked for.
#[derive(Clone, Copy, Debug)]
pub struct Asked<'a> {
    pub text: &'a [u8],
    pub name: &'a [u8],
    pub selection: Selection<'a>,
}

type Ask = fn(Asked, &mut [u8], &mut [u8]) -> Outcome;

/// A function of the port, the one that it goes on from, and the first number that it adds.
pub struct Door {
    pub own: Ask,
    pub below: Ask,
    pub first: u32,
    /// Holds what else is shown of an accepted preset against the definitions.
    pub shown: fn(records::Rooms, Asked, &Preset) -> Result<(), String>,
}

/// The reader of records goes on from the reader of trees.
pub const RECORDS: Door = Door {
    own: |a, store, tree| records::read(a.text, a.name, store, tree),
    below: |a, store, tree| document::read(a.text, store, tree),
    first: 20,
    shown: |_, _, _| Ok(()),
};

/// The validator goes on from the reader of records.
pub const VALIDATE: Door = Door {
    own: |a, store, tree| records::validate(a.text, a.name, store, tree),
    below: RECORDS.own,
    first: 30,
    ..RECORDS
};

/// Every sort of rooms, made once; each reading finds noise in them.
pub struct Host {
    door: Door,
    lent: Lent,
    rooms: [Rooms; 4],
    turn: u64,
    /// The key of the application that goes with the boot chain.
    pub selected: Option<Vec<u8>>,
}

// What is only read.
struct Lent {
    text: Fenced,
    name: Fenced,
    key: Fenced,
}

// Names are lent up to this length.
const NAME_ROOM: usize = 70_000;
// One reading in so many begins one in all rooms.
const SELDOM: u64 = 32;

impl Default for Host {
    fn default() -> Self {
        Host::new(RECORDS)
    }
}

impl Host {
    pub fn new(door: Door) -> Self {
        Host {
            door,
            lent: Lent {
                text: Fenced::new(TEXT_ROOM),
                name: Fenced::new(NAME_ROOM),
                key: Fenced::new(NAME_ROOM),
            },
            rooms: Rooms::all(),
            turn: 0,
            selected: None,
        }
    }

    /// Reads a preset in rooms as small as can be, now and then one in all sorts of rooms, and
    /// holds number, section, place, count, store, tree and records against `want`.
    pub fn judge(&mut self, text: &[u8], name: &[u8], want: &Read) -> Result<Heard, String> {
        match self.turn % SELDOM {
            0 => self.judge_fully(text, name, want),
            _ => self.read(text, name, want, EXACT),
        }
    }

    /// The same in all sorts of rooms, twice in one of them, and beside the function below.
    pub fn judge_fully(&mut self, text: &[u8], name: &[u8], want: &Read) -> Result<Heard, String> {
        let seventeen = Err(Refusal {
            number: 17,
            section: 0,
            place: 0,
        });
        let others = [
            ("in longer rooms", want, LONG),
            ("in too short a store", &seventeen, SHORT[0]),
            ("in too short a tree room", &seventeen, SHORT[1]),
            ("the second time", want, EXACT),
        ];
        let heard = self.read(text, name, want, EXACT)?;
        for (when, want, rooms) in others {
            let told = self.read(text, name, want, rooms);
            told.map_err(|e| format!("{when}: {e}"))?.ok();
        }
        self.beside(text, name, want)?;
        Ok(heard)
    }

    /// Only the answer and the rooms: the ones as small as can be hold what an accepted preset leaves,
    /// which is the same for every selection.
    pub(crate) fn briefly(&mut self, text: &[u8], name: &[u8], want: &Read) -> Result<(), String> {
        self.turn += 1;
        let asked = self.lent.asked(text, name, &self.selected, self.turn);
        let [exact, long, ..] = &mut self.rooms;
        let got = long.reading(self.turn, |store, tree| (self.door.own)(asked, store, tree))?;
        if got != outcome(want) {
            return Err(format!("{got:?} against {:?}", outcome(want)));
        }
        let (store, tree) = match want {
            Ok(_) => (exact.store.bytes(), exact.tree.bytes()),
            Err(_) => (Default::default(), Default::default()),
        };
        holds(long.store.bytes(), store).map_err(|e| format!("store: {e}"))?;
        holds(long.tree.bytes(), tree).map_err(|e| format!("tree: {e}"))
    }

    fn read(&mut self, text: &[u8], name: &[u8], want: &Read, n: usize) -> Result<Heard, String> {
        self.turn += 1;
        let asked = self.lent.asked(text, name, &self.selected, self.turn);
        let rooms = &mut self.rooms[n];
        let got = rooms.reading(self.turn, |store, tree| (self.door.own)(asked, store, tree))?;
        if got != outcome(want) {
            return Err(format!("{got:?} against {:?}", outcome(want)));
        }
        let (store, tree) = (&*rooms.store.bytes(), &*rooms.tree.bytes());
        let want = want.as_ref();
        held(store, tree, want.ok().map(|answer| &answer.text))?;
        let Ok(want) = want else {
            return Ok(Err(got.number));
        };
        let made = got.made as usize;
        let rooms = records::Rooms { tree, store, made };
        let preset = owned::preset(rooms, asked.name)?;
        if let Some(difference) = difference(&preset, &want.preset) {
            return Err(difference);
        }
        (self.door.shown)(rooms, asked, &preset)?;
        Ok(Ok(preset))
    }

    // The rooms as small as can be were read last. What they hold, the function below leaves too;
    // what is refused with a number of its own, that one accepts, and views show what they can.
    fn beside(&mut self, text: &[u8], name: &[u8], want: &Read) -> Result<(), String> {
        self.turn += 1;
        let asked = self.lent.asked(text, name, &self.selected, self.turn);
        let [exact, long, ..] = &mut self.rooms;
        let got = long.reading(self.turn, |store, tree| {
            (self.door.below)(asked, store, tree)
        })?;
        let (store, tree) = (&*long.store.bytes(), &*long.tree.bytes());
        let made = got.made as usize;
        look(records::Rooms { tree, store, made }, asked.name)?;
        let own = |refusal: &Refusal| refusal.number >= self.door.first;
        if want.as_ref().is_err_and(own) {
            return match got.number {
                0 => Ok(()),
                _ => Err(format!("the function below: {got:?}")),
            };
        }
        let same =
            *exact.store.bytes() == store[..STORE_MIN] && *exact.tree.bytes() == tree[..TREE_MIN];
        if got == outcome(want) && same {
            Ok(())
        } else {
            Err(format!("the function below, {got:?}, leaves other rooms"))
        }
    }
}

// Numbers of selections that are not the boot chain's.
const APPS: [u32; 5] = [1, 2, 256, 65_536, u32::MAX];

impl Lent {
    // Each ends at its protected page. The boot chain has any key: here the name.
    fn asked(
        &mut self,
        text: &[u8],
        name: &[u8],
        selected: &Option<Vec<u8>>,
        turn: u64,
    ) -> Asked<'_> {
        let key = selected.as_deref().unwrap_or(name);
        let app = APPS[turn as usize % APPS.len()];
        Asked {
            text: self.text.ending(&text[..text.len().min(TEXT_ROOM)]),
            name: self.name.ending(&name[..name.len().min(NAME_ROOM)]),
            selection: Selection {
                app: selected.as_ref().map_or(0, |_| app),
                key: self.key.ending(&key[..key.len().min(NAME_ROOM)]),
            },
        }
    }
}

/// A selection, in words before what is said of it.
pub fn about(selected: &Option<Vec<u8>>) -> String {
    let key = selected.as_ref();
    key.map_or(String::new(), |key| {
        format!("application \"{}\": ", key.escape_ascii())
    })
}

/// The first record in which two presets differ, or nothing.
pub fn difference(got: &Preset, want: &Preset) -> Option<String> {
    let [own, other] = [got, want].map(|p| p.components.iter().flat_map(paths));
    let same = got == want && own.eq(other);
    (!same).then(|| differing(&rows(got), &rows(want)))
}

// Letter for letter, where equal paths are such as lead to the same file.
pub(crate) fn paths(c: &ComponentSpec) -> [Option<&str>; 3] {
    [&c.file, &c.pbp, &c.private].map(|path| path.as_deref().map(written))
}

/// The first of the rows that differ.
pub fn differing(got: &[String], want: &[String]) -> String {
    match got.iter().zip(want).find(|(a, b)| a != b) {
        Some((got, want)) => format!("{got} against {want}"),
        None => format!("{} records against {}", got.len(), want.len()),
    }
}

/// Looks through every view of any rooms: what is not found is zero, all views of a component are
/// there or none, and lists of features end.
pub fn look(rooms: records::Rooms, name: &[u8]) -> Result<(), String> {
    let counts = rooms.counts();
    seen(rooms.board(name))?;
    seen(rooms.image())?;
    for i in few(counts.partitions) {
        seen(rooms.partition(i))?;
    }
    for i in few(counts.components) {
        let found = [
            there(rooms.head(i))?,
            there(rooms.role(i))?,
            there(rooms.boot(i))?,
            there(rooms.load(i))?,
        ];
        if found.iter().any(|f| *f != found[0]) {
            return Err(format!("only some views of component {i} are there"));
        }
        let role = rooms.role(i);
        walk(rooms, role.features, ITEMS_MAX)?;
        walk(rooms, role.pbp_features, ITEMS_MAX)?;
    }
    for i in few(counts.applications) {
        seen(rooms.application(i))?;
        walk(rooms, rooms.application(i).features, ITEMS_MAX)?;
    }
    Ok(())
}

pub(crate) fn there<V: View>(view: V) -> Result<bool, String> {
    seen(view).map(|found| found.is_some())
}

// The first entries, some after the last one, and one that no list has.
pub(crate) fn few(count: usize) -> impl Iterator<Item = usize> {
    (0..count.min(66) + 2).chain([usize::MAX])
}

// No feature list of a record has more items.
const ITEMS_MAX: usize = 32;

pub(crate) fn walk(rooms: records::Rooms, list: FeatureList, most: usize) -> Result<(), String> {
    let mut after = None;
    for _ in 0..=most {
        match seen(rooms.feature(list, after))? {
            Some(item) => after = Some((item.from, item.len)),
            None => return Ok(()),
        }
    }
    Err(format!("{list:?} has more than {most} items"))
}
