//! The port's answers to one text, with the rooms it was lent looked through.
use crate::harness::rooms::holds;
use crate::model::answer::value::{Answer, Bytes, Int, Key, Read, Str, Value};
use port::value::{
    self, Decoded, SEGMENTS_MAX, SLOT, STORE_MIN, Segments, Slot, TREE_MIN, ValueRead,
};

/// Asks every reader about a text of at most 32,768 bytes.
pub fn ask(text: &[u8]) -> Result<Answer, String> {
    Ok(Answer {
        int: int(text)?,
        string: string(text)?,
        key: key(text)?,
        value: value(text)?,
    })
}

pub fn int(s: &[u8]) -> Result<Int, String> {
    let got = value::int(s);
    match (got.number, got.value) {
        (0, value) => Ok(Ok(value)),
        (number, 0) => Ok(Err(number)),
        _ => Err(format!("{got:?}")),
    }
}

/// Asks with the least room, a longer one, and a shorter one, in which the answer is 17.
fn in_rooms<T: PartialEq>(
    what: &str,
    s: &[u8],
    ask: impl Fn(&[u8], usize) -> Result<T, String>,
    seventeen: T,
) -> Result<T, String> {
    let answer = ask(s, s.len())?;
    if ask(s, s.len() + 5)? != answer {
        return Err(format!("{what}: another answer in a longer room"));
    }
    match s.len() {
        0 => Ok(answer),
        n if ask(s, n - 1)? == seventeen => Ok(answer),
        _ => Err(format!("{what}: a room too short is not 17")),
    }
}

pub fn string(s: &[u8]) -> Result<Str, String> {
    in_rooms("string", s, string_in, Err((17, 0)))
}

/// Asks with a room of that length, filled before.
pub fn string_in(s: &[u8], room: usize) -> Result<Str, String> {
    let mut out = vec![0xAA; room];
    let got = value::string(s, &mut out);
    let Decoded {
        number,
        used,
        written,
        at,
    } = got;
    let sound = match number {
        0 => at == 0 && written < used && used <= s.len().min(room),
        _ => used + written == 0,
    };
    if !sound {
        return Err(format!("string: {got:?}"));
    }
    let held = out[..written].to_vec();
    holds(&out, &held).map_err(|e| format!("string: {e}"))?;
    Ok(match number {
        0 => Ok((used, Bytes(held))),
        _ => Err((number, at)),
    })
}

pub fn key(s: &[u8]) -> Result<Key, String> {
    in_rooms("key", s, key_in, Err(17))
}

/// Asks with a room of that length, filled before.
pub fn key_in(s: &[u8], room: usize) -> Result<Key, String> {
    let mut store = vec![0xAA; room];
    let got = value::key(s, &mut store);
    let Segments {
        number,
        count,
        used,
    } = got;
    let nothing = count + used == 0;
    if used > room || count > SEGMENTS_MAX || (number != 0) != nothing {
        return Err(format!("key: {got:?}"));
    }
    let held = store[..used].to_vec();
    holds(&store, &held).map_err(|e| format!("key: {e}"))?;
    let ends = ends(s, room, count)?;
    match number {
        0 => segments(&held, &ends).map(Ok),
        _ => Ok(Err(number)),
    }
}

// Where the segments end, each asked for by itself; after the last there is none.
fn ends(s: &[u8], room: usize, count: usize) -> Result<Vec<usize>, String> {
    let mut out = Vec::new();
    for i in 0..=count.min(SEGMENTS_MAX) {
        let mut store = vec![0xAA; room];
        let end = value::key_end(s, &mut store, i);
        holds(&store, b"").map_err(|e| format!("key, end {i}: {e}"))?;
        if i < count {
            out.push(end);
        } else if end != 0 {
            return Err(format!("key: segment {i} of {count} ends at {end}"));
        }
    }
    Ok(out)
}

// The parts of the store between the ends, which must be all of it.
fn segments(held: &[u8], ends: &[usize]) -> Result<Vec<Bytes>, String> {
    let (mut out, mut from) = (Vec::new(), 0);
    for &end in ends {
        let part = held.get(from..end).ok_or("key: ends out of order")?;
        out.push(Bytes(part.to_vec()));
        from = end;
    }
    if from == held.len() {
        Ok(out)
    } else {
        Err("key: the last end is not that of the store".into())
    }
}

/// Asks with the least rooms.
pub fn value(s: &[u8]) -> Result<Read, String> {
    value_in(s, STORE_MIN, TREE_MIN)
}

/// Asks with rooms of these lengths, filled before.
pub fn value_in(s: &[u8], store_room: usize, tree_room: usize) -> Result<Read, String> {
    let (mut store, mut tree) = (vec![0xAA; store_room], vec![0xAA; tree_room]);
    let got = value::read(s, &mut store, &mut tree);
    let ValueRead { number, used, made } = got;
    let nothing = used + made == 0;
    if used > store_room || made > tree_room / SLOT || (number != 0) != nothing {
        return Err(format!("value: {got:?}"));
    }
    let held = store[..used].to_vec();
    holds(&store, &held).map_err(|e| format!("value, store: {e}"))?;
    holds(&tree[SLOT * made..], b"").map_err(|e| format!("value, tree: {e}"))?;
    if number != 0 {
        return Ok(Err(number));
    }
    let slots: Vec<_> = (0..made).map(|n| plain(value::slot(&tree, n))).collect();
    let value = rebuild(&slots, &held)?;
    // no byte and no number but by the rules
    if value.lay() == (held, slots) {
        Ok(Ok(value))
    } else {
        Err(format!("value: {value:?} is laid otherwise"))
    }
}

// `-0` keeps its minus in the tree room, and is 0.
fn plain(slot: Slot) -> Slot {
    match (slot.kind, slot.data) {
        (6, 0) => Slot { kind: 2, ..slot },
        _ => slot,
    }
}

// Hangs the values up from the last to the first, since an item comes after its array.
fn rebuild(slots: &[Slot], store: &[u8]) -> Result<Value, String> {
    let mut items = vec![Vec::new(); slots.len()];
    for (n, slot) in slots.iter().enumerate().rev() {
        let mut own = std::mem::take(&mut items[n]);
        own.reverse();
        let value = single(slot, own, store).ok_or_else(|| format!("value {n}: {slot:?}"))?;
        match slot.parent as usize {
            0 if n == 0 => return Ok(value),
            p if (2..n + 2).contains(&p) => items[p - 2].push(value),
            _ => return Err(format!("value {n}: {slot:?}")),
        }
    }
    Err("accepted, and no value made".into())
}

fn single(slot: &Slot, items: Vec<Value>, store: &[u8]) -> Option<Value> {
    let (start, length) = (slot.data as usize % 65_536, slot.data as usize / 65_536);
    match (slot.kind, slot.data) {
        (4, 0) => Some(Value::Array(items)),
        _ if !items.is_empty() => None,
        (1, _) => {
            let part = store.get(start..start.checked_add(length)?)?;
            Some(Value::Str(Bytes(part.to_vec())))
        }
        (2, magnitude) => Some(Value::Int(i64::try_from(magnitude).ok()?)),
        (6, magnitude) => Some(Value::Int(0i64.checked_sub_unsigned(magnitude)?)),
        (3, bit @ 0..=1) => Some(Value::Bool(bit == 1)),
        _ => None,
    }
}
