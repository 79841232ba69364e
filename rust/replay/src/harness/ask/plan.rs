//! The port's plans, with the rooms that they leave looked through.
use super::records::{self, Asked, Door, Host, VALIDATE, about, differing, few, there, walk};
use crate::generators::plan::keys::{Answered, answers};
use crate::harness::vector::plan::rows;
use crate::model::answer::records::{Preset, Read};
use crate::model::plan::{self as model, Selected};
use crate::model::records::written;
use port::plans::{self, Planned, Selection, SourceView};
use port::records::{Bytes, FeatureList, Rooms};
use preset::{ImagePlan, PlannedComponent, Source, owned};

/// The planner goes on from the validator.
pub const PLAN: Door = Door {
    own: |a, store, tree| plans::plan(a.text, a.name, a.selection, store, tree),
    below: VALIDATE.own,
    first: 80,
    shown: planned,
};

// The whole plan; `preset` is what the rooms hold.
fn planned(rooms: Rooms, asked: Asked, preset: &Preset) -> Result<(), String> {
    let got = owned::plan(rooms, asked.name, asked.selection)?;
    let want = model::plan(preset, selected(asked.selection));
    let want = want.map_err(|refusal| format!("planned against {refusal:?}"))?;
    difference(&got, &want).map_or(Ok(()), Err)
}

fn selected(s: Selection) -> Selected {
    (s.app != 0).then_some(s.key)
}

/// The first part in which two plans differ, or nothing.
pub fn difference(got: &ImagePlan, want: &ImagePlan) -> Option<String> {
    let [own, other] = [got, want].map(|p| p.components.iter().flat_map(paths));
    let same = got == want && own.eq(other);
    (!same).then(|| differing(&rows(got), &rows(want)))
}

fn paths(c: &PlannedComponent) -> impl Iterator<Item = Option<&str>> {
    let sources = [Some(&c.source), c.pbp_source.as_ref()];
    let files = sources.map(|source| match source {
        Some(Source::File(path)) => Some(written(path)),
        _ => None,
    });
    records::paths(&c.spec).into_iter().chain(files)
}

/// Plans a preset for every selection, and holds each answer against the definitions.
pub fn judge(host: &mut Host, text: &[u8], name: &[u8], read: &Read) -> Result<(), String> {
    for one in answers(read) {
        host.selecting(&one, text, name, read, false)?;
    }
    Ok(())
}

impl Host {
    /// Plans it for one selection, in all sorts of rooms where that is wished for. A brief answer is
    /// asked for after the boot chain's.
    pub fn selecting(
        &mut self,
        one: &Answered,
        text: &[u8],
        name: &[u8],
        read: &Read,
        fully: bool,
    ) -> Result<(), String> {
        let want = one.told(read);
        self.selected.clone_from(&one.selected);
        let told = if one.brief {
            self.briefly(text, name, &want)
        } else if fully {
            self.judge_fully(text, name, &want).map(drop)
        } else {
            self.judge(text, name, &want).map(drop)
        };
        told.map_err(|e| format!("{}{e}", about(&self.selected)))
    }
}

/// Looks through every view of a plan in any rooms: what is not found is zero, all views of a
/// component are there or none, and lists end.
pub fn look(rooms: Rooms, name: &[u8], selection: Selection) -> Result<(), String> {
    let planned = Planned { rooms, selection };
    let counts = planned.counts();
    text(planned.stem(name))?;
    for i in few(counts.components) {
        component(&planned, i)?;
    }
    for i in few(counts.builds) {
        let build = planned.build(i);
        if there(build)? != (i < counts.builds) {
            return Err(format!("{build:?} as number {i} of {}", counts.builds));
        }
        ends(rooms, build.features)?;
    }
    Ok(())
}

// Entries with a fault are used too, and may have lists of any length.
fn ends(rooms: Rooms, list: FeatureList) -> Result<(), String> {
    walk(rooms, list, rooms.store.len() + rooms.made)
}

fn component(planned: &Planned, i: usize) -> Result<(), String> {
    let (own, pbp) = (planned.source(i), planned.pbp(i));
    let placed = there(planned.partition(i))?;
    let found = [
        there(planned.head(i))?,
        there(planned.role(i))?,
        there(planned.boot(i))?,
        there(planned.load(i))?,
        source(planned.rooms, own)?,
    ];
    if found.iter().any(|f| *f != found[0]) {
        return Err(format!("only some views of component {i} are there"));
    }
    if !found[0] && (placed || source(planned.rooms, pbp)?) {
        Err(format!("component {i} is not there but for {pbp:?}"))
    } else {
        ends(planned.rooms, planned.role(i).features)
    }
}

// Whether there is one.
fn source(rooms: Rooms, s: SourceView) -> Result<bool, String> {
    let bare = SourceView::default();
    ends(rooms, s.features)?;
    let filed = s.file != bare.file;
    match s.kind {
        0 if s == bare => Ok(false),
        1 if !filed => Ok(true),
        2 if filed => Ok(true),
        _ => Err(format!("{s:?}")),
    }
}

fn text(b: Bytes) -> Result<(), String> {
    match b.kind {
        0..=4 => Ok(()),
        _ => Err(format!("{b:?}")),
    }
}
