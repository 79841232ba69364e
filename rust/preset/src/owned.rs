//! What the views of rooms show, copied out as owned records; for callers who lend rooms of their own.
//!
//! Both functions take what a call of `port` that accepted a preset left, and say what in a view is against its rules:
//! with the proved library nothing ever is.
use crate::schema::*;
use port::plans::{self, Planned, SourceView};
use port::records::{
    BootView, Bytes, FeatureList, HeadView, LoadView, PartitionView, RoleView, Rooms,
};
use port::views::{all, amount, flag, seen};
use std::collections::BTreeMap;
use std::path::PathBuf;

// No list of an accepted preset has more entries.
const ENTRIES_MAX: usize = 64;
// Every component of a preset and an application; two packages for each and that one's.
const COMPONENTS_MAX: usize = ENTRIES_MAX + 1;
const BUILDS_MAX: usize = 2 * ENTRIES_MAX + 1;

/// The records; `name` as it was lent for reading.
pub fn preset(rooms: Rooms, name: &[u8]) -> Result<Preset, String> {
    let (shown, counts) = (Shown(rooms), rooms.counts());
    let component = |i| {
        let own = (rooms.head(i), rooms.role(i), rooms.boot(i), rooms.load(i));
        shown.component(i, own)
    };
    Ok(Preset {
        board: shown.board(name)?,
        image: shown.image()?,
        partitions: shown.partitions()?,
        components: all(counts.components, ENTRIES_MAX, component)?,
        apps: by_package(all(counts.applications, ENTRIES_MAX, |i| {
            shown.application(i)
        })?)?,
    })
}

/// The plan; `name` and `selection` as they were lent for planning.
pub fn plan(rooms: Rooms, name: &[u8], selection: plans::Selection) -> Result<ImagePlan, String> {
    let (shown, planned) = (Shown(rooms), Planned { rooms, selection });
    let counts = planned.counts();
    Ok(ImagePlan {
        board: shown.board(name)?,
        image: shown.image()?,
        partitions: shown.partitions()?,
        components: all(counts.components, COMPONENTS_MAX, |i| {
            shown.planned(&planned, i)
        })?,
        required_builds: all(counts.builds, BUILDS_MAX, |i| shown.build(&planned, i))?,
        stem: text(rooms.text_or_name(planned.stem(name), name)?)?,
    })
}

// Applications are shown in byte order of package, each once.
fn by_package(apps: Vec<AppSpec>) -> Result<BTreeMap<String, AppSpec>, String> {
    if apps.is_sorted_by(|a, b| a.package < b.package) {
        Ok(apps.into_iter().map(|a| (a.package.clone(), a)).collect())
    } else {
        Err("packages of applications do not rise".into())
    }
}

// A preset's text is UTF-8 (2), and it is cut at ASCII characters alone, so every text of its records is too.
fn text(bytes: Vec<u8>) -> Result<String, String> {
    String::from_utf8(bytes).map_err(|e| format!("\"{}\" is no text", e.as_bytes().escape_ascii()))
}

#[derive(Clone, Copy)]
struct Shown<'a>(Rooms<'a>);

// All four views of a component.
type Views = (HeadView, RoleView, BootView, LoadView);

impl Shown<'_> {
    fn text(&self, b: Bytes) -> Result<String, String> {
        text(self.0.text(b)?)
    }

    fn maybe(&self, b: Bytes) -> Result<Option<String>, String> {
        self.0.maybe(b)?.map(text).transpose()
    }

    fn path(&self, b: Bytes) -> Result<Option<PathBuf>, String> {
        Ok(self.maybe(b)?.map(PathBuf::from))
    }

    fn features(&self, list: FeatureList) -> Result<Vec<String>, String> {
        self.0.features(list)?.into_iter().map(text).collect()
    }

    fn board(&self, name: &[u8]) -> Result<BoardInfo, String> {
        let board = seen(self.0.board(name))?.ok_or("no board")?;
        let chip = match board.chip {
            1 => Chip::D13x,
            2 => Chip::D21x,
            _ => return Err(format!("{board:?}")),
        };
        Ok(BoardInfo {
            name: text(self.0.text_or_name(board.name, name)?)?,
            chip,
            target: self.text(board.target)?,
            profile: self.text(board.profile)?,
        })
    }

    fn image(&self) -> Result<ImageInfo, String> {
        let image = seen(self.0.image())?.ok_or("no image")?;
        let media = match image.media {
            1 => Media::SpiNor,
            2 => Media::SpiNand,
            _ => return Err(format!("{image:?}")),
        };
        Ok(ImageInfo {
            platform: self.text(image.platform)?,
            product: self.text(image.product)?,
            version: self.text(image.version)?,
            media,
            media_dev_id: image.media_dev_id,
            media_id: self.text(image.media_id)?,
            boot_app: self.text(image.app)?,
        })
    }

    fn partitions(&self) -> Result<Vec<PartitionSpec>, String> {
        let count = self.0.counts().partitions;
        all(count, ENTRIES_MAX, |i| self.partition(self.0.partition(i)))
    }

    fn partition(&self, view: PartitionView) -> Result<Option<PartitionSpec>, String> {
        let Some(partition) = seen(view)? else {
            return Ok(None);
        };
        let name = self.0.part(partition.from, partition.len)?;
        Ok(Some(PartitionSpec {
            name: text(name.to_vec())?,
            offset: partition.offset,
            size: partition.size,
            locked: flag(partition.locked)?,
        }))
    }

    // All views of component number i are there, or none.
    fn component(&self, i: usize, views: Views) -> Result<Option<ComponentSpec>, String> {
        let (head, role, boot, load) = views;
        match (seen(head)?, seen(role)?, seen(boot)?, seen(load)?) {
            (Some(_), Some(_), Some(_), Some(_)) => self.component_of(views).map(Some),
            (None, None, None, None) => Ok(None),
            _ => Err(format!("only some views of component {i} are there")),
        }
    }

    fn component_of(&self, (head, role, boot, load): Views) -> Result<ComponentSpec, String> {
        let kind = match head.kind {
            1 => ComponentKind::App,
            2 => ComponentKind::Pbp,
            3 => ComponentKind::Raw,
            _ => return Err(format!("{head:?}")),
        };
        Ok(ComponentSpec {
            kind,
            name: self.text(head.name)?,
            package: self.maybe(head.package)?,
            bin: self.maybe(head.bin)?,
            file: self.path(head.file)?,
            filename: self.text(head.filename)?,
            features: self.features(role.features)?,
            pbp_features: self.features(role.pbp_features)?,
            partition: self.text(role.partition)?,
            attr: self.text(role.attr)?,
            target_attr: self.maybe(role.target_attr)?,
            target_filename: self.maybe(role.target_filename)?,
            updater: flag(boot.updater)?,
            ram: amount(boot.ram)?,
            pbp: self.path(boot.pbp)?,
            pbp_package: self.maybe(boot.pbp_package)?,
            private: self.path(boot.private)?,
            load_address: amount(load.load_address)?,
            entry_point: amount(load.entry_point)?,
            entry_offset: amount(load.entry_offset)?,
            header_version: amount(load.header_version)?,
            with_ext: flag(load.with_ext)?,
            ext_reserve: load.ext_reserve as usize,
        })
    }

    fn application(&self, i: usize) -> Result<Option<AppSpec>, String> {
        let Some(app) = seen(self.0.application(i))? else {
            return Ok(None);
        };
        Ok(Some(AppSpec {
            package: self.text(app.package)?,
            name: self.text(app.name)?,
            partition: self.text(app.partition)?,
            filename: self.text(app.filename)?,
            attr: self.text(app.attr)?,
            features: self.features(app.features)?,
            load_address: amount(app.load_address)?,
            entry_offset: amount(app.entry_offset)?,
        }))
    }

    // All views of a planned component are there but for the PBP and the partition, or none.
    fn planned(&self, plan: &Planned, i: usize) -> Result<Option<PlannedComponent>, String> {
        let own = (plan.head(i), plan.role(i), plan.boot(i), plan.load(i));
        let spec = self.component(i, own)?;
        let source = self.source(plan.source(i))?;
        let pbp_source = self.source(plan.pbp(i))?;
        let partition = self.partition(plan.partition(i))?;
        match (spec, source) {
            (Some(spec), Some(source)) => Ok(Some(PlannedComponent {
                spec,
                source,
                pbp_source,
                partition,
            })),
            (None, None) if pbp_source.is_none() && partition.is_none() => Ok(None),
            _ => Err(format!("only some views of component {i} are there")),
        }
    }

    // What its kind does not use is zero.
    fn source(&self, s: SourceView) -> Result<Option<Source>, String> {
        let SourceView { kind, file, .. } = s;
        let bare = SourceView::default();
        let filed = SourceView { kind, file, ..bare };
        match kind {
            0 if s == bare => Ok(None),
            1 if file == bare.file => Ok(Some(Source::Package {
                package: self.text(s.package)?,
                bin: self.text(s.bin)?,
                features: self.features(s.features)?,
            })),
            2 if s == filed => Ok(Some(Source::File(self.text(file)?.into()))),
            _ => Err(format!("{s:?}")),
        }
    }

    fn build(&self, plan: &Planned, i: usize) -> Result<Option<BuildRequirement>, String> {
        let Some(build) = seen(plan.build(i))? else {
            return Ok(None);
        };
        Ok(Some(BuildRequirement {
            package: self.text(build.package)?,
            bin: self.text(build.bin)?,
            features: self.features(build.features)?,
        }))
    }
}
