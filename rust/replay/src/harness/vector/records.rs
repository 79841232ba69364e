//! The form of the recorded answers: one lent name, one preset and its answer to a line.
//!
//! `NAME TEXT ok MADE PRESET` or `NAME TEXT refused NUMBER SECTION PLACE`. A text is as in
//! `document`. A preset is its board, its image, then its partitions, components and applications,
//! each list in `[` and `]`; a record is its fields, one after the other, in the order in which
//! they are read, `-` for an absent one; features stand in `[` and `]`; the lock of a partition is
//! `open` or `locked`.
use super::document::{Parts, parts, quoted};
use super::line::{Reader, quote};
use crate::model::answer::records::{Preset, Refusal};
use crate::model::records::{CHIPS, KINDS, LOCKS, MEDIA, named, written};
use preset::{AppSpec, BoardInfo, ComponentSpec, ImageInfo, PartitionSpec};
use std::path::PathBuf;

/// The count of values and the records, or what else is recorded; or the refusal.
pub type Recorded<T = Preset> = Result<(usize, T), Refusal>;

/// One line of the file, without its end.
pub fn write(name: &[u8], text: &Parts, answer: &Recorded) -> String {
    let answer = told(answer, whole);
    format!("{} {} {answer}", quoted(name), parts(text))
}

/// The answer by itself.
pub(crate) fn told<T>(answer: &Recorded<T>, whole: fn(&T) -> String) -> String {
    match answer {
        Ok((made, it)) => format!("ok {made} {}", whole(it)),
        Err(refusal) => {
            let Refusal {
                number,
                section,
                place,
            } = refusal;
            format!("refused {number} {section} {place}")
        }
    }
}

fn whole(p: &Preset) -> String {
    let front = [board(&p.board), image(&p.image)].join(" ");
    let partitions = list(&p.partitions, partition);
    let components = list(&p.components, component);
    let apps = list(p.apps.values(), application);
    [front, partitions, components, apps].join(" ")
}

/// Its records in words, one by one.
pub fn rows(p: &Preset) -> Vec<String> {
    let mut out = vec![
        format!("board {}", board(&p.board)),
        format!("image {}", image(&p.image)),
    ];
    let each = p.partitions.iter().map(partition);
    out.extend(each.map(|row| format!("partition {row}")));
    let each = p.components.iter().map(component);
    out.extend(each.map(|row| format!("component {row}")));
    let each = p.apps.values().map(application);
    out.extend(each.map(|row| format!("application {row}")));
    out
}

pub(crate) fn list<'a, T: 'a>(
    items: impl IntoIterator<Item = &'a T>,
    one: fn(&T) -> String,
) -> String {
    let items = items.into_iter().map(|item| one(item) + " ");
    format!("[ {}]", items.collect::<String>())
}

pub(crate) fn texts(items: &[String]) -> String {
    list(items, |s| quote(s))
}

pub(crate) fn maybe(s: Option<&str>) -> String {
    s.map_or("-".into(), quote)
}

fn path(path: &Option<PathBuf>) -> String {
    maybe(path.as_deref().map(written))
}

fn amount(n: &Option<u32>) -> String {
    n.map_or("-".into(), |n| n.to_string())
}

pub(crate) fn board(b: &BoardInfo) -> String {
    let chip = named(&CHIPS, b.chip);
    [quote(&b.name), chip, quote(&b.target), quote(&b.profile)].join(" ")
}

pub(crate) fn image(i: &ImageInfo) -> String {
    let fields = [
        quote(&i.platform),
        quote(&i.product),
        quote(&i.version),
        named(&MEDIA, i.media),
        i.media_dev_id.to_string(),
        quote(&i.media_id),
        quote(&i.boot_app),
    ];
    fields.join(" ")
}

pub(crate) fn partition(p: &PartitionSpec) -> String {
    let lock = named(&LOCKS, p.locked);
    format!("{} {} {} {lock}", quote(&p.name), p.offset, p.size)
}

pub(crate) fn component(c: &ComponentSpec) -> String {
    let fields = [
        named(&KINDS, c.kind),
        quote(&c.name),
        maybe(c.package.as_deref()),
        maybe(c.bin.as_deref()),
        path(&c.file),
        quote(&c.filename),
        texts(&c.features),
        texts(&c.pbp_features),
        quote(&c.partition),
        quote(&c.attr),
        maybe(c.target_attr.as_deref()),
        maybe(c.target_filename.as_deref()),
        c.updater.to_string(),
        amount(&c.ram),
        path(&c.pbp),
        maybe(c.pbp_package.as_deref()),
        path(&c.private),
        amount(&c.load_address),
        amount(&c.entry_point),
        amount(&c.entry_offset),
        amount(&c.header_version),
        c.with_ext.to_string(),
        c.ext_reserve.to_string(),
    ];
    fields.join(" ")
}

fn application(a: &AppSpec) -> String {
    let fields = [
        quote(&a.package),
        quote(&a.name),
        quote(&a.partition),
        quote(&a.filename),
        quote(&a.attr),
        texts(&a.features),
        amount(&a.load_address),
        amount(&a.entry_offset),
    ];
    fields.join(" ")
}

/// The name, the text and the answer of one line.
pub fn read(line: &str) -> Result<(Vec<u8>, Parts, Recorded), String> {
    let mut r = Reader(line);
    let (name, text) = (r.bytes()?, r.parts()?);
    Ok((name, text, r.told(Reader::preset)?))
}

impl Reader<'_> {
    pub(crate) fn told<T>(
        &mut self,
        whole: fn(&mut Self) -> Result<T, String>,
    ) -> Result<Recorded<T>, String> {
        match self.word() {
            "ok" => Ok(Ok((self.number()?, whole(self)?))),
            "refused" => Ok(Err(Refusal {
                number: self.number()?,
                section: self.number()?,
                place: self.number()?,
            })),
            word => Err(format!("{word:?} stands in place of ok or refused")),
        }
    }

    fn preset(&mut self) -> Result<Preset, String> {
        Ok(Preset {
            board: self.board()?,
            image: self.image()?,
            partitions: self.list(Reader::partition)?,
            components: self.list(Reader::component)?,
            apps: {
                let apps = self.list(Reader::application)?.into_iter();
                apps.map(|app| (app.package.clone(), app)).collect()
            },
        })
    }

    pub(crate) fn list<T>(
        &mut self,
        one: fn(&mut Self) -> Result<T, String>,
    ) -> Result<Vec<T>, String> {
        self.named("[")?;
        let mut out = Vec::new();
        while !self.0.starts_with(']') {
            out.push(one(self)?);
        }
        self.word();
        Ok(out)
    }

    pub(crate) fn texts(&mut self) -> Result<Vec<String>, String> {
        self.list(Reader::quoted)
    }

    pub(crate) fn unless_absent<T>(
        &mut self,
        one: fn(&mut Self) -> Result<T, String>,
    ) -> Result<Option<T>, String> {
        if !self.0.starts_with("- ") {
            return one(self).map(Some);
        }
        self.word();
        Ok(None)
    }

    fn maybe(&mut self) -> Result<Option<String>, String> {
        self.unless_absent(Reader::quoted)
    }

    fn path(&mut self) -> Result<Option<PathBuf>, String> {
        Ok(self.maybe()?.map(PathBuf::from))
    }

    fn amount(&mut self) -> Result<Option<u32>, String> {
        self.unless_absent(Reader::number)
    }

    fn meant<T: Copy>(&mut self, words: &[(&str, T)]) -> Result<T, String> {
        let word = self.word();
        let known = words.iter().find(|(w, _)| *w == word);
        known
            .map(|(_, meant)| *meant)
            .ok_or(format!("{word:?} is unknown"))
    }

    pub(crate) fn board(&mut self) -> Result<BoardInfo, String> {
        Ok(BoardInfo {
            name: self.quoted()?,
            chip: self.meant(&CHIPS)?,
            target: self.quoted()?,
            profile: self.quoted()?,
        })
    }

    pub(crate) fn image(&mut self) -> Result<ImageInfo, String> {
        Ok(ImageInfo {
            platform: self.quoted()?,
            product: self.quoted()?,
            version: self.quoted()?,
            media: self.meant(&MEDIA)?,
            media_dev_id: self.number()?,
            media_id: self.quoted()?,
            boot_app: self.quoted()?,
        })
    }

    pub(crate) fn partition(&mut self) -> Result<PartitionSpec, String> {
        Ok(PartitionSpec {
            name: self.quoted()?,
            offset: self.number()?,
            size: self.number()?,
            locked: self.meant(&LOCKS)?,
        })
    }

    pub(crate) fn component(&mut self) -> Result<ComponentSpec, String> {
        Ok(ComponentSpec {
            kind: self.meant(&KINDS)?,
            name: self.quoted()?,
            package: self.maybe()?,
            bin: self.maybe()?,
            file: self.path()?,
            filename: self.quoted()?,
            features: self.texts()?,
            pbp_features: self.texts()?,
            partition: self.quoted()?,
            attr: self.quoted()?,
            target_attr: self.maybe()?,
            target_filename: self.maybe()?,
            updater: self.number()?,
            ram: self.amount()?,
            pbp: self.path()?,
            pbp_package: self.maybe()?,
            private: self.path()?,
            load_address: self.amount()?,
            entry_point: self.amount()?,
            entry_offset: self.amount()?,
            header_version: self.amount()?,
            with_ext: self.number()?,
            ext_reserve: self.number()?,
        })
    }

    fn application(&mut self) -> Result<AppSpec, String> {
        Ok(AppSpec {
            package: self.quoted()?,
            name: self.quoted()?,
            partition: self.quoted()?,
            filename: self.quoted()?,
            attr: self.quoted()?,
            features: self.texts()?,
            load_address: self.amount()?,
            entry_offset: self.amount()?,
        })
    }
}
