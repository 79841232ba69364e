//! The lines of a listing from the original's preset and its plan of the boot chain.
use crate::records::original::{Told, parsed};
use crate::validate::original::told_of;
use oracle::preset::{ComponentKind, ImagePlan, PlannedComponent, Preset, Selection};
use std::fmt::Write;

/// Of a text, with the count of values that it makes, which the original does not have.
pub fn read(text: &str, name: &[u8], made: usize) -> Result<String, Told> {
    let preset = parsed(text, name)?;
    let plan = preset.plan(&Selection::Bootloader);
    let plan = plan.map_err(|e| told_of(&preset, &e.to_string()))?;
    Ok(rendered(&preset, &plan, made))
}

/// The lines themselves.
pub fn rendered(preset: &Preset, plan: &ImagePlan, made: usize) -> String {
    let mut out = String::new();
    written(&mut out, preset, plan, made).expect("a String takes all");
    out
}

fn written(out: &mut String, p: &Preset, plan: &ImagePlan, made: usize) -> std::fmt::Result {
    let (chip, media) = (plan.board.chip.name(), plan.image.media.name());
    let counts = (p.partitions.len(), p.components.len(), p.apps.len());
    writeln!(
        out,
        "ok {chip} {media} {} {} {} {made}",
        counts.0, counts.1, counts.2
    )?;
    for part in &plan.partitions {
        let end = u64::from(part.offset) + u64::from(part.size);
        quoted(out, "part ", &part.name);
        // it has all fields but the last word, and is asked about presets without locks
        writeln!(out, " {} {end} open", part.offset)?;
    }
    for PlannedComponent { spec, .. } in &plan.components {
        let kind = match spec.kind {
            ComponentKind::App => " app",
            ComponentKind::Pbp => " pbp",
            ComponentKind::Raw => " raw",
        };
        quoted(out, "comp ", &spec.name);
        out.push_str(kind);
        reference(out, &spec.partition);
    }
    for (key, app) in &p.apps {
        quoted(out, "app ", key);
        quoted(out, " ", &app.name);
        reference(out, &app.partition);
    }
    for build in &plan.required_builds {
        quoted(out, "build ", &build.package);
        writeln!(out, " {}", build.features.len())?;
    }
    quoted(out, "stem ", &plan.stem);
    writeln!(out)
}

// At the end of a line; none is a dash.
fn reference(out: &mut String, partition: &str) {
    match partition {
        "" => out.push_str(" -"),
        _ => quoted(out, " ", partition),
    }
    out.push('\n');
}

// The original prints no quotes: its names go in as they are up to each byte that is escaped.
fn quoted(out: &mut String, before: &str, name: &str) {
    let mut from = 0;
    out.push_str(before);
    out.push('"');
    for (at, byte) in name.bytes().enumerate() {
        let escape = match byte {
            b'\n' => r"\n",
            b'\r' => r"\r",
            b'\t' => r"\t",
            b'\\' => r"\\",
            b'"' => r#"\""#,
            _ => continue,
        };
        out.push_str(&name[from..at]);
        out.push_str(escape);
        from = at + 1;
    }
    out.push_str(&name[from..]);
    out.push('"');
}
