//! The functions that start from a text, called with anything whatever.
use super::rooms::holds;
use super::rooms::{Fenced, Room};
use port::document::Outcome;
use port::listing::{Listed, out_min};
use port::plans::{Selection, plan};
use port::records;
use port::value::{SLOT, STORE_MIN, TREE_MIN};

/// What is only read.
#[derive(Clone, Copy, Debug, Default)]
pub struct Input<'a> {
    pub text: &'a [u8],
    pub name: &'a [u8],
    pub key: &'a [u8],
}

/// The store, the tree room and the output, which is lent to the listing alone.
pub type Rooms<'a> = [&'a mut [u8]; 3];

/// A refusal with its section and place, or how much was made or written.
#[derive(Clone, Copy, Debug, PartialEq, Eq)]
pub struct Said {
    pub number: u32,
    pub section: u32,
    pub place: u32,
    pub count: u32,
}

impl From<Outcome> for Said {
    fn from(o: Outcome) -> Self {
        Said {
            number: o.number,
            section: o.section,
            place: o.place,
            count: o.made,
        }
    }
}

impl From<Listed> for Said {
    fn from(l: Listed) -> Self {
        Said {
            number: l.number,
            section: l.section,
            place: l.place,
            count: l.written,
        }
    }
}

pub struct Function {
    pub called: &'static str,
    /// How many of the three it is lent.
    pub rooms: usize,
    /// The greatest number that it refuses with.
    pub last: u32,
    pub call: fn(Input, Rooms) -> Said,
}

/// What one of them refuses all others refuse that go so far, and with the same words.
pub const FUNCTIONS: &[Function] = &[
    Function {
        called: "preset_read",
        rooms: 2,
        last: 25,
        call: |i, [store, tree, _]| records::read(i.text, i.name, store, tree).into(),
    },
    Function {
        called: "preset_validate",
        rooms: 2,
        last: 70,
        call: |i, [store, tree, _]| records::validate(i.text, i.name, store, tree).into(),
    },
    Function {
        called: "preset_plan of the boot chain",
        rooms: 2,
        last: 70,
        call: |i, [store, tree, _]| {
            let selection = Selection { app: 0, key: i.key };
            plan(i.text, i.name, selection, store, tree).into()
        },
    },
    Function {
        called: "preset_listing",
        rooms: 3,
        last: 70,
        call: |i, [store, tree, out]| port::listing::list(i.text, i.name, store, tree, out).into(),
    },
    Function {
        called: "preset_plan of an application",
        rooms: 2,
        last: 81,
        call: |i, [store, tree, _]| {
            let selection = Selection { app: 1, key: i.key };
            plan(i.text, i.name, selection, store, tree).into()
        },
    },
];

/// How long the rooms must be for a name that is lent.
pub fn least(name: &[u8]) -> [usize; 3] {
    [STORE_MIN, TREE_MIN, out_min(name)]
}

impl Function {
    /// Calls it and looks through the rooms: zero after a refusal, else after what was made. After the lines
    /// of an output it is for the caller to see that nothing was changed.
    pub fn judge(&self, input: Input, mut rooms: Rooms) -> Result<Said, String> {
        let said = (self.call)(input, rooms.each_mut().map(|room| &mut **room));
        let [store, tree, out] = rooms;
        let count = said.count as usize;
        let zero = match (said.number, self.rooms) {
            (0, 2) => [&store[STORE_MIN..], &tree[SLOT * count..], &[]],
            (0, _) => [&store[STORE_MIN..], &tree[TREE_MIN..], &[]],
            (_, 2) => [&*store, &*tree, &[]],
            _ => [&*store, &*tree, &*out],
        };
        for (room, what) in zero.iter().zip(["store", "tree room", "output"]) {
            holds(room, b"").map_err(|e| format!("{}, {what}: {e}", self.called))?;
        }
        if said.number > 0 && count > 0 {
            Err(format!("{}: {said:?}", self.called))
        } else {
            Ok(said)
        }
    }

    /// How many bytes of the output it wrote, where it accepted and was lent one.
    pub fn written(&self, said: Said) -> Option<usize> {
        (said.number == 0 && self.rooms == 3).then_some(said.count as usize)
    }
}

/// Rooms with protected pages beside them, two of each, and what is only read before such a page.
pub struct Bench {
    lent: [Fenced; 3],
    rooms: [[Room; 3]; 2],
    turn: u64,
}

impl Bench {
    /// Rooms of these lengths that end at their pages, or begin there; no input has more bytes than `most`.
    pub fn new(lengths: [usize; 3], ending: bool, most: usize) -> Self {
        let rooms = || lengths.map(|length| Room::beside(length, ending));
        Bench {
            lent: [most; 3].map(Fenced::new),
            rooms: [rooms(), rooms()],
            turn: 0,
        }
    }

    /// Every function on one input; what the last one says, which goes furthest.
    pub fn all(&mut self, input: Input) -> Result<Said, String> {
        let said = FUNCTIONS.iter().map(|function| self.twice(function, input));
        let said: Vec<_> = said.collect::<Result<_, _>>()?;
        let furthest = *said.last().expect("some functions");
        for (function, said) in FUNCTIONS.iter().zip(said) {
            let far = furthest.number <= function.last;
            let agrees = if far && furthest.number > 0 {
                said == furthest
            } else {
                said.number == 0
            };
            if !agrees {
                return Err(format!("{}: {said:?} beside {furthest:?}", function.called));
            }
        }
        Ok(furthest)
    }

    /// Twice, with other noise in other rooms: the answer and the rooms are the same, of an output its lines.
    pub fn twice(&mut self, function: &Function, input: Input) -> Result<Said, String> {
        let first = self.once(function, input, 0)?;
        let second = self.once(function, input, 1)?;
        let [one, other] = &mut self.rooms;
        // after a refusal all of them are zero
        let held = first.number > 0 || left(one, function, first) == left(other, function, first);
        if first == second && held {
            Ok(first)
        } else {
            let called = function.called;
            Err(format!(
                "{called}: {first:?}, then {second:?} or other rooms"
            ))
        }
    }

    /// The rooms that are lent to a function that said this, as it left them; of an output its lines.
    pub fn lent(&mut self, function: &Function, said: Said) -> Vec<&[u8]> {
        left(&mut self.rooms[0], function, said)
    }

    // Nothing beside the rooms is changed, nor after the lines of an output.
    fn once(&mut self, function: &Function, input: Input, n: usize) -> Result<Said, String> {
        self.turn += 1;
        let rooms = &mut self.rooms[n];
        for room in &mut rooms[..function.rooms] {
            room.fill(self.turn);
        }
        let [text, name, key] = &mut self.lent;
        let input = Input {
            text: text.ending(input.text),
            name: name.ending(input.name),
            key: key.ending(input.key),
        };
        let said = function.judge(input, rooms.each_mut().map(Room::bytes))?;
        let [_, _, out] = &mut *rooms;
        let after = function.written(said);
        let as_it_was = after.is_none_or(|written| out.filled(self.turn, written));
        if as_it_was && rooms.iter_mut().all(Room::kept) {
            Ok(said)
        } else {
            Err(format!(
                "{}: bytes beside the rooms or after the lines were changed",
                function.called
            ))
        }
    }
}

// What a function that said this promises of the rooms it was lent.
fn left<'a>(rooms: &'a mut [Room; 3], function: &Function, said: Said) -> Vec<&'a [u8]> {
    let lent = rooms.iter_mut().take(function.rooms);
    let mut lent: Vec<&[u8]> = lent.map(|room| &*room.bytes()).collect();
    if let (Some(written), Some(out)) = (function.written(said), lent.last_mut()) {
        *out = &out[..written];
    }
    lent
}
