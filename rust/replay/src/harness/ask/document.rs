//! The port's answer to a whole text, with the rooms it was lent looked through.
use crate::harness::rooms::holds;
use crate::harness::rooms::{EXACT, Fenced, LONG, Rooms, SHORT, TEXT_ROOM};
use crate::model::answer::document::{Answer, Read, Table, shown};
use port::document::{self, Outcome};
use port::value::SLOT;

/// The tree, or the refusal's number.
pub type Heard = Result<Table, u32>;

/// Every sort of rooms, made once; each reading finds noise in them.
pub struct Host {
    text: Fenced,
    rooms: [Rooms; 4],
    turn: u64,
}

// One reading in so many begins one in all rooms.
const SELDOM: u64 = 32;

impl Default for Host {
    fn default() -> Self {
        Host {
            text: Fenced::new(TEXT_ROOM),
            rooms: Rooms::all(),
            turn: 0,
        }
    }
}

impl Host {
    /// Reads a text in rooms as small as can be, now and then one in all sorts of rooms, and holds
    /// number, place, count, store and tree against `want`.
    pub fn judge(&mut self, text: &[u8], want: &Read) -> Result<Heard, String> {
        match self.turn % SELDOM {
            0 => self.judge_fully(text, want),
            _ => self.read(text, want, EXACT),
        }
    }

    /// The same in all sorts of rooms, and twice in one of them.
    pub fn judge_fully(&mut self, text: &[u8], want: &Read) -> Result<Heard, String> {
        let heard = self.read(text, want, EXACT)?;
        let seventeen = Err((17, 0));
        let others = [
            ("the second time", want, EXACT),
            ("in longer rooms", want, LONG),
            ("in too short a store", &seventeen, SHORT[0]),
            ("in too short a tree room", &seventeen, SHORT[1]),
        ];
        for (when, want, rooms) in others {
            let told = self.read(text, want, rooms);
            told.map_err(|e| format!("{when}: {e}"))?.ok();
        }
        Ok(heard)
    }

    fn read(&mut self, text: &[u8], want: &Read, rooms: usize) -> Result<Heard, String> {
        self.turn += 1;
        let text = self.text.ending(&text[..text.len().min(TEXT_ROOM)]);
        let rooms = &mut self.rooms[rooms];
        let got = rooms.reading(self.turn, |store, tree| document::read(text, store, tree))?;
        if got != outcome(want) {
            return Err(format!("{got:?} against {:?}", outcome(want)));
        }
        let (store, tree) = (&*rooms.store.bytes(), &*rooms.tree.bytes());
        let root = held(store, tree, want.as_ref().ok())?;
        Ok(want.as_ref().map(|_| root).map_err(|_| got.number))
    }
}

/// The tree of rooms that hold what an accepted text leaves, or else are all zero.
pub fn held(store: &[u8], tree: &[u8], want: Option<&Answer>) -> Result<Table, String> {
    let nothing = Answer::default();
    let want = want.unwrap_or(&nothing);
    holds(store, &want.store).map_err(|e| format!("store: {e}"))?;
    holds(&tree[SLOT * want.made..], b"").map_err(|e| format!("tree: {e}"))?;
    let root = document::rebuild(tree, store, want.made)?;
    if root != want.root {
        let (got, want) = (shown(&root), shown(&want.root));
        return Err(format!("tree {got} against {want}"));
    }
    Ok(root)
}

fn outcome(want: &Read) -> Outcome {
    let (number, place, made) = match want {
        Ok(answer) => (0, 0, answer.made),
        Err((number, place)) => (*number, *place, 0),
    };
    Outcome {
        number,
        section: 0,
        place: place as u32,
        made: made as u32,
    }
}
