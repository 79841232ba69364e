//! The form of the recorded plans: one lent name, one preset, what is selected and the answer to a
//! line.
//!
//! `NAME TEXT SELECTED ok MADE PLAN` or `NAME TEXT SELECTED refused NUMBER SECTION PLACE`. A text,
//! records and lists are as in `records`. What is selected is a key, or `-` for the boot chain. A
//! plan is its board, its image, its partitions, its components, its builds and its stem. A
//! component is its record, its source, its PBP and the partition that it refers to, each `-` where
//! there is none. A build is its package, its bin and its features; a source is `package` and a
//! build, or `file` and a path.
use super::document::{Parts, parts, quoted};
use super::line::{Reader, quote};
use super::records::{Recorded, board, component, image, list, partition, texts, told};
use crate::model::records::written;
use preset::{BuildRequirement, ImagePlan, PlannedComponent, Source};

/// What is selected, as it is held.
pub type Key = Option<Vec<u8>>;

/// One line of the file, without its end.
pub fn write(name: &[u8], text: &Parts, selected: &Key, answer: &Recorded<ImagePlan>) -> String {
    let selected = selected.as_ref().map_or("-".into(), |key| quoted(key));
    let answer = told(answer, whole);
    format!("{} {} {selected} {answer}", quoted(name), parts(text))
}

fn whole(p: &ImagePlan) -> String {
    let fields = [
        board(&p.board),
        image(&p.image),
        list(&p.partitions, partition),
        list(&p.components, planned),
        list(&p.required_builds, build),
        quote(&p.stem),
    ];
    fields.join(" ")
}

/// Its parts in words, one by one.
pub fn rows(p: &ImagePlan) -> Vec<String> {
    let mut out = vec![
        format!("board {}", board(&p.board)),
        format!("image {}", image(&p.image)),
        format!("stem {}", quote(&p.stem)),
    ];
    let each = p.partitions.iter().map(partition);
    out.extend(each.map(|row| format!("partition {row}")));
    let each = p.components.iter().map(planned);
    out.extend(each.map(|row| format!("component {row}")));
    let each = p.required_builds.iter().map(build);
    out.extend(each.map(|row| format!("build {row}")));
    out
}

fn planned(c: &PlannedComponent) -> String {
    let pbp = c.pbp_source.as_ref().map_or("-".into(), source);
    let placed = c.partition.as_ref().map_or("-".into(), partition);
    [component(&c.spec), source(&c.source), pbp, placed].join(" ")
}

fn source(s: &Source) -> String {
    match s {
        Source::Package {
            package,
            bin,
            features,
        } => format!("package {}", built(package, bin, features)),
        Source::File(path) => format!("file {}", quote(written(path))),
    }
}

fn build(b: &BuildRequirement) -> String {
    built(&b.package, &b.bin, &b.features)
}

fn built(package: &str, bin: &str, features: &[String]) -> String {
    [quote(package), quote(bin), texts(features)].join(" ")
}

/// The name, the text, what is selected and the answer of one line.
pub fn read(line: &str) -> Result<(Vec<u8>, Parts, Key, Recorded<ImagePlan>), String> {
    let mut r = Reader(line);
    let (name, text) = (r.bytes()?, r.parts()?);
    let selected = r.unless_absent(Reader::bytes)?;
    Ok((name, text, selected, r.told(Reader::plan)?))
}

impl Reader<'_> {
    fn plan(&mut self) -> Result<ImagePlan, String> {
        Ok(ImagePlan {
            board: self.board()?,
            image: self.image()?,
            partitions: self.list(Reader::partition)?,
            components: self.list(Reader::planned)?,
            required_builds: self.list(Reader::build)?,
            stem: self.quoted()?,
        })
    }

    fn planned(&mut self) -> Result<PlannedComponent, String> {
        Ok(PlannedComponent {
            spec: self.component()?,
            source: self.source()?,
            pbp_source: self.unless_absent(Reader::source)?,
            partition: self.unless_absent(Reader::partition)?,
        })
    }

    fn source(&mut self) -> Result<Source, String> {
        match self.word() {
            "package" => Ok(Source::Package {
                package: self.quoted()?,
                bin: self.quoted()?,
                features: self.texts()?,
            }),
            "file" => Ok(Source::File(self.quoted()?.into())),
            word => Err(format!("{word:?} stands in place of package or file")),
        }
    }

    fn build(&mut self) -> Result<BuildRequirement, String> {
        Ok(BuildRequirement {
            package: self.quoted()?,
            bin: self.quoted()?,
            features: self.texts()?,
        })
    }
}
