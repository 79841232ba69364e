//! `preset plan` and `preset listing`.
use crate::answer::Answer;
use crate::check::refused;
use crate::input;
use preset::shown::{plain, quoted};
use preset::{BuildRequirement, ImagePlan, PlannedComponent, Preset, Selection, Source};
use std::ffi::OsStr;

pub fn plan(file: &OsStr, app: Option<String>) -> Answer {
    let input = match input::read(file) {
        Ok(input) => input,
        Err(why) => return Answer::failed(why),
    };
    let selection = match &app {
        Some(key) => Selection::App(key.clone()),
        None => Selection::Bootloader,
    };
    match Preset::plan(&input.text, input.board.as_bytes(), &selection) {
        Ok(plan) => Answer::result(lines(&plan)),
        Err(refusal) => refused(&input, refusal, app.as_deref()),
    }
}

pub fn listing(file: &OsStr) -> Answer {
    let input = match input::read(file) {
        Ok(input) => input,
        Err(why) => return Answer::failed(why),
    };
    match Preset::listing(&input.text, input.board.as_bytes()) {
        Ok(lines) => Answer::result(lines),
        Err(refusal) => refused(&input, refusal, None),
    }
}

fn lines(plan: &ImagePlan) -> String {
    let (board, image) = (&plan.board, &plan.image);
    let mut out = format!(
        "board {}: {}, {}, target {}, profile {}\n",
        quoted(&board.name),
        board.chip.name(),
        image.media.name(),
        plain(&board.target),
        plain(&board.profile)
    );
    let components = plan.components.iter().enumerate();
    out.extend(components.map(|(i, c)| component(i, c)));
    out.extend(plan.required_builds.iter().map(build));
    out + &format!("stem {}\n", quoted(&plan.stem))
}

fn component(i: usize, planned: &PlannedComponent) -> String {
    let spec = &planned.spec;
    let mut out = format!("component {i} {}: {}", quoted(&spec.name), spec.kind.name());
    if let Some(partition) = &planned.partition {
        let (offset, size) = (partition.offset, partition.size);
        let name = quoted(&partition.name);
        out += &format!(", into {name} at {offset:#X} (size {size:#X})");
    }
    if spec.updater {
        let at = spec
            .ram
            .map_or(String::new(), |ram| format!(" at {ram:#X}"));
        out += &format!(", updater{at}");
    }
    out += &format!(", from {}", source(&planned.source));
    if let Some(pbp) = &planned.pbp_source {
        out += &format!(", pbp from {}", source(pbp));
    }
    out + "\n"
}

fn source(source: &Source) -> String {
    match source {
        Source::Package { package, .. } => format!("package {}", quoted(package)),
        Source::File(path) => format!("file {}", quoted(&path.to_string_lossy())),
    }
}

fn build(build: &BuildRequirement) -> String {
    let mut out = format!("build {}", quoted(&build.package));
    if build.bin != build.package {
        out += &format!(", bin {}", quoted(&build.bin));
    }
    if !build.features.is_empty() {
        out += &format!(", features {}", plain(&build.features.join(" ")));
    }
    out + "\n"
}
