//! The words after `preset`.
use preset::shown;
use std::ffi::{OsStr, OsString};

/// How `check` speaks of what the rules accept.
#[derive(Clone, Copy, Debug, Default, PartialEq, Eq)]
pub struct Manner {
    /// Not at all.
    pub quiet: bool,
    /// A note is a failure, and is told even so.
    pub deny: bool,
}

#[derive(Debug, PartialEq, Eq)]
pub enum Command {
    Help,
    Version,
    Check {
        files: Vec<OsString>,
        manner: Manner,
    },
    Plan {
        file: OsString,
        app: Option<String>,
    },
    Listing {
        file: OsString,
    },
    Map {
        file: OsString,
        app: Option<String>,
        svg: Option<OsString>,
    },
    Explain {
        number: OsString,
    },
}

// The one option with nothing after it.
const QUIET: &str = "--quiet";

/// What is asked for, or what is wrong with the words.
pub fn parse(mut words: impl Iterator<Item = OsString>) -> Result<Command, String> {
    let first = words.next().ok_or("no command")?;
    let options: &[&str] = match first.to_str() {
        Some("-h" | "--help" | "help") => return Ok(Command::Help),
        Some("-V" | "--version") => return Ok(Command::Version),
        Some("check") => &["--deny", QUIET],
        Some("listing" | "explain") => &[],
        Some("plan") => &["--app"],
        Some("map") => &["--app", "--svg"],
        _ => return Err(format!("no command {}", name(&first))),
    };
    match sort(words, options)? {
        Some(sorted) => asked(first.to_str().unwrap_or_default(), sorted),
        None => Ok(Command::Help),
    }
}

fn asked(command: &str, mut sorted: Sorted) -> Result<Command, String> {
    let app = sorted.app.take().map(key).transpose()?;
    match command {
        "check" => Ok(Command::Check {
            manner: Manner {
                quiet: sorted.quiet,
                deny: denied(sorted.deny)?,
            },
            files: several(sorted.files)?,
        }),
        "explain" => Ok(Command::Explain {
            number: sorted.one(command, "number")?,
        }),
        "listing" => Ok(Command::Listing {
            file: sorted.one(command, "file")?,
        }),
        "plan" => Ok(Command::Plan {
            file: sorted.one(command, "file")?,
            app,
        }),
        _ => Ok(Command::Map {
            file: sorted.one(command, "file")?,
            app,
            svg: sorted.svg,
        }),
    }
}

fn name(word: &OsStr) -> String {
    shown::quoted(&word.to_string_lossy())
}

#[derive(Default)]
struct Sorted {
    files: Vec<OsString>,
    app: Option<OsString>,
    svg: Option<OsString>,
    deny: Option<OsString>,
    quiet: bool,
}

impl Sorted {
    fn one(&mut self, command: &str, what: &str) -> Result<OsString, String> {
        match self.files.pop() {
            None => Err(format!("{command}: no {what} is named")),
            Some(only) if self.files.is_empty() => Ok(only),
            Some(_) => Err(format!("{command}: more than one {what} is named")),
        }
    }

    fn option(&mut self, option: &str) -> &mut Option<OsString> {
        match option {
            "--app" => &mut self.app,
            "--deny" => &mut self.deny,
            _ => &mut self.svg,
        }
    }
}

// Options from the rest; none where help is asked for. After `--` there are no options.
fn sort(
    mut words: impl Iterator<Item = OsString>,
    options: &[&str],
) -> Result<Option<Sorted>, String> {
    let mut sorted = Sorted::default();
    while let Some(word) = words.next() {
        let spelled = word.to_str().unwrap_or_default();
        let (option, own) = match spelled.split_once('=') {
            Some((option, value)) => (option, Some(OsString::from(value))),
            None => (spelled, None),
        };
        match option {
            "-h" | "--help" => return Ok(None),
            "--" => sorted.files.extend(words.by_ref()),
            "-q" | QUIET if own.is_none() && options.contains(&QUIET) => sorted.quiet = true,
            _ if options.contains(&option) && option != QUIET => {
                let value = own.or_else(|| words.next());
                let value = value.ok_or(format!("{option}: nothing stands after it"))?;
                if sorted.option(option).replace(value).is_some() {
                    return Err(format!("{option} stands there twice"));
                }
            }
            _ if spelled.starts_with('-') && spelled != "-" => {
                return Err(format!("no option {}", name(&word)));
            }
            _ => sorted.files.push(word),
        }
    }
    Ok(Some(sorted))
}

// Keys of a preset are UTF-8, so no other word is one.
fn key(word: OsString) -> Result<String, String> {
    word.into_string()
        .map_err(|word| format!("--app: {} is not UTF-8", name(&word)))
}

// Notes are the one thing that can be denied.
fn denied(word: Option<OsString>) -> Result<bool, String> {
    match word {
        None => Ok(false),
        Some(word) if word == "notes" => Ok(true),
        Some(word) => Err(format!(
            "--deny: {} cannot be denied, but notes can",
            name(&word)
        )),
    }
}

// At least one; standard input has one text.
fn several(files: Vec<OsString>) -> Result<Vec<OsString>, String> {
    match files.iter().filter(|file| *file == "-").count() {
        _ if files.is_empty() => Err("check: no file is named".into()),
        0 | 1 => Ok(files),
        _ => Err("check: `-` stands there twice".into()),
    }
}

#[cfg(test)]
mod tests {
    use super::{Command, Manner, parse};
    use std::ffi::OsString;

    fn parsed(line: &str) -> Result<Command, String> {
        parse(line.split_whitespace().map(OsString::from))
    }

    #[test]
    fn options_may_stand_anywhere() {
        let want = Ok(Command::Map {
            file: "a.toml".into(),
            app: Some("k".into()),
            svg: Some("-".into()),
        });
        assert_eq!(parsed("map a.toml --app k --svg -"), want);
        assert_eq!(parsed("map --app=k a.toml --svg=-"), want);
        assert_eq!(parsed("map --svg - --app k -- a.toml"), want);
        let odd = |quiet, deny| {
            Ok(Command::Check {
                files: vec!["--app".into(), "-".into()],
                manner: Manner { quiet, deny },
            })
        };
        assert_eq!(parsed("check -- --app -"), odd(false, false));
        assert_eq!(parsed("check --quiet -- --app -"), odd(true, false));
        assert_eq!(parsed("check --deny notes -- --app -"), odd(false, true));
        assert_eq!(
            parsed("check -q --deny=notes -q -- --app -"),
            odd(true, true)
        );
        assert_eq!(parsed("plan a --app k --help"), Ok(Command::Help));
    }

    #[test]
    fn bad_words_are_told() {
        let wrong = [
            ("", "no command"),
            ("x", "no command \"x\""),
            ("check", "check: no file is named"),
            ("check --app k f", "no option \"--app\""),
            ("check - -", "check: `-` stands there twice"),
            ("check f --deny", "--deny: nothing stands after it"),
            (
                "check f --deny note",
                "--deny: \"note\" cannot be denied, but notes can",
            ),
            (
                "check --deny f",
                "--deny: \"f\" cannot be denied, but notes can",
            ),
            (
                "check f --deny notes --deny=notes",
                "--deny stands there twice",
            ),
            ("check f --quiet=yes", "no option \"--quiet=yes\""),
            ("check f -qq", "no option \"-qq\""),
            ("plan f --quiet", "no option \"--quiet\""),
            ("plan f --deny notes", "no option \"--deny\""),
            ("listing f -q", "no option \"-q\""),
            ("plan", "plan: no file is named"),
            ("plan a b", "plan: more than one file is named"),
            ("plan a --app", "--app: nothing stands after it"),
            ("plan a --app k --app=l", "--app stands there twice"),
            ("plan a --svg o", "no option \"--svg\""),
            ("listing -x", "no option \"-x\""),
            ("explain", "explain: no number is named"),
        ];
        for (line, want) in wrong {
            assert_eq!(parsed(line), Err(want.into()), "{line}");
        }
    }
}
