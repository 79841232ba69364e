//! The port's listing of a preset, with the rooms it was lent looked through.
use super::records::differing;
use crate::harness::rooms::holds;
use crate::harness::rooms::{EXACT, Fenced, LONG, Room, Rooms, SHORT, TEXT_ROOM};
use crate::model::answer::records::Refusal;
use port::listing::{Listed, list, out_min};
use port::plans;

/// The lines, or the refusal.
pub type Lines = Result<Vec<u8>, Refusal>;

/// Every sort of rooms, made once; each listing finds noise in them.
pub struct Host {
    text: Fenced,
    name: Fenced,
    rooms: [Rooms; 4],
    exact: Room,
    long: Room,
    turn: u64,
}

// Names are lent up to this length.
const NAME_ROOM: usize = 70_000;
// One listing in so many begins one in all rooms.
const SELDOM: u64 = 32;
// Longer than it need be by so many bytes.
const MORE: usize = 1_357;

impl Default for Host {
    fn default() -> Self {
        let most = out_min(&[0; NAME_ROOM]);
        Host {
            text: Fenced::new(TEXT_ROOM),
            name: Fenced::new(NAME_ROOM),
            rooms: Rooms::all(),
            exact: Room::exact(most),
            long: Room::guarded(most + MORE),
            turn: 0,
        }
    }
}

impl Host {
    /// Lists a preset in rooms as small as can be, now and then one in all sorts of rooms, and holds
    /// number, section, place, output, store and tree room against `want` and the planner.
    pub fn judge(&mut self, text: &[u8], name: &[u8], want: &Lines) -> Result<(), String> {
        match self.turn % SELDOM {
            0 => self.judge_fully(text, name, want),
            _ => self.judge_once(text, name, want),
        }
    }

    /// The same in all sorts of rooms, and twice in one of them.
    pub fn judge_fully(&mut self, text: &[u8], name: &[u8], want: &Lines) -> Result<(), String> {
        let seventeen = Err(Refusal {
            number: 17,
            section: 0,
            place: 0,
        });
        let least = out_min(name);
        let others = [
            ("in longer rooms", want, LONG, least + MORE),
            ("in too short a store", &seventeen, SHORT[0], least),
            ("in too short a tree room", &seventeen, SHORT[1], least),
            ("in too short an output", &seventeen, EXACT, least - 1),
        ];
        for (when, want, rooms, out) in others {
            let told = self.list(text, name, want, rooms, out);
            told.map_err(|e| format!("{when}: {e}"))?;
        }
        self.judge_once(text, name, want)?;
        let told = self.list(text, name, want, EXACT, least);
        told.map_err(|e| format!("the second time: {e}"))
    }

    // Both rooms are left as the planner leaves them.
    fn judge_once(&mut self, text: &[u8], name: &[u8], want: &Lines) -> Result<(), String> {
        self.list(text, name, want, EXACT, out_min(name))?;
        let [exact, long, ..] = &mut self.rooms;
        let planned = long.reading(self.turn, |store, tree| {
            plans::plan(text, name, None.into(), store, tree)
        })?;
        let number = want.as_ref().err().map_or(0, |refusal| refusal.number);
        let same = |own: &mut Room, other: &mut Room| holds(other.bytes(), own.bytes()).is_ok();
        if planned.number == number
            && same(&mut exact.store, &mut long.store)
            && same(&mut exact.tree, &mut long.tree)
        {
            Ok(())
        } else {
            Err(format!("the planner, {planned:?}, leaves other rooms"))
        }
    }

    fn list(
        &mut self,
        text: &[u8],
        name: &[u8],
        want: &Lines,
        rooms: usize,
        room: usize,
    ) -> Result<(), String> {
        self.turn += 1;
        let text = self.text.ending(&text[..text.len().min(TEXT_ROOM)]);
        let name = self.name.ending(name);
        let out = match rooms {
            LONG => &mut self.long,
            _ => &mut self.exact,
        };
        out.fit(room);
        out.fill(self.turn);
        let rooms = &mut self.rooms[rooms];
        let got = rooms.reading(self.turn, |store, tree| {
            list(text, name, store, tree, out.bytes())
        })?;
        if got != listed(want) {
            return Err(format!("{got:?} against {:?}", listed(want)));
        }
        if !out.kept() {
            return Err("bytes beside the output were changed".into());
        }
        match want {
            Ok(lines) => written(out, self.turn, lines),
            Err(_) => {
                holds(out.bytes(), b"").map_err(|e| format!("output: {e}"))?;
                holds(rooms.store.bytes(), b"").map_err(|e| format!("store: {e}"))?;
                holds(rooms.tree.bytes(), b"").map_err(|e| format!("tree: {e}"))
            }
        }
    }
}

/// What the port says beside the rooms.
pub fn listed(want: &Lines) -> Listed {
    match want {
        Ok(lines) => Listed {
            written: lines.len() as u32,
            ..Listed::default()
        },
        Err(refusal) => Listed {
            number: refusal.number,
            section: refusal.section,
            place: refusal.place as u32,
            written: 0,
        },
    }
}

// The lines stand in an output that was filled with that noise, and after them it is as it was; or the
// first line that differs.
fn written(out: &mut Room, noise: u64, want: &[u8]) -> Result<(), String> {
    let got = &out.bytes()[..want.len()];
    if got != want {
        return Err(differing(&rows(got), &rows(want)));
    }
    if out.filled(noise, want.len()) {
        Ok(())
    } else {
        Err("the output is changed after the last line".into())
    }
}

/// Its lines in words, one by one.
pub fn rows(lines: &[u8]) -> Vec<String> {
    let each = lines.split_inclusive(|&b| b == b'\n');
    each.map(|line| format!("\"{}\"", line.escape_ascii()))
        .collect()
}
