//! Plans a preset and prints what its plan has: `plan PRESET [APPLICATION]`, the boot chain where none is named.
use port::plans::{Planned, plan};
use port::records::Rooms;
use port::value::{STORE_MIN, TREE_MIN};
use std::process::ExitCode;

// The board's name where the preset has none.
const NAME: &[u8] = b"board";

fn main() -> ExitCode {
    let mut words = std::env::args().skip(1);
    let Some(path) = words.next() else {
        eprintln!("usage: plan PRESET [APPLICATION]");
        return ExitCode::from(2);
    };
    let text = std::fs::read(&path).unwrap_or_else(|e| panic!("{path}: {e}"));
    match planned(&text, words.next().as_deref()) {
        Ok(lines) => {
            print!("{lines}");
            ExitCode::SUCCESS
        }
        Err(refusal) => {
            println!("{refusal}");
            ExitCode::FAILURE
        }
    }
}

fn planned(text: &[u8], application: Option<&str>) -> Result<String, String> {
    let (mut store, mut tree) = (vec![0; STORE_MIN], vec![0; TREE_MIN]);
    let selection = application.map(str::as_bytes).into();
    let got = plan(text, NAME, selection, &mut store, &mut tree);
    if got.number > 0 {
        let (number, section, place) = (got.number, got.section, got.place);
        return Err(format!("refused {number} {section} {place}"));
    }
    let rooms = Rooms {
        tree: &tree,
        store: &store,
        made: got.made as usize,
    };
    lines(&Planned { rooms, selection })
}

// Each view is asked for what is printed of it alone.
fn lines(plan: &Planned) -> Result<String, String> {
    let (rooms, counts) = (plan.rooms, plan.counts());
    let text = |bytes: Vec<u8>| String::from_utf8_lossy(&bytes).into_owned();
    let stem = text(rooms.text_or_name(plan.stem(NAME), NAME)?);
    let mut out = format!("{} values, stem {stem}\n", rooms.made);
    for i in 0..counts.components {
        let (name, at) = (text(rooms.text(plan.head(i).name)?), plan.partition(i));
        let at = match at.found {
            0 => String::new(),
            _ => format!(" at {}", at.offset),
        };
        out += &format!("component {name}{at}\n");
    }
    for i in 0..counts.builds {
        let build = plan.build(i);
        let package = text(rooms.text(build.package)?);
        let features = rooms.features(build.features)?.into_iter();
        let features: String = features.map(|f| format!(" +{}", text(f))).collect();
        out += &format!("build {package}{features}\n");
    }
    Ok(out)
}

#[cfg(test)]
mod tests {
    use super::planned;

    const EXAMPLE: &str = include_str!("../../../presets/example.toml");

    #[test]
    fn what_is_printed() {
        let planned = |text: &str, key| planned(text.as_bytes(), key);
        let boot_chain = "21 values, stem loader\ncomponent first at 0\nbuild loader\n";
        assert_eq!(planned(EXAMPLE, None), Ok(boot_chain.into()));
        let desk = "21 values, stem desk\ncomponent desk at 262144\ncomponent first at 0\n\
                    build loader\nbuild desk +pan +tilt\n";
        assert_eq!(planned(EXAMPLE, Some("desk")), Ok(desk.into()));
        assert_eq!(planned(EXAMPLE, Some("x")), Err("refused 80 5 0".into()));
        assert_eq!(planned("x\n]", None), Err("refused 3 0 2".into()));
    }
}
