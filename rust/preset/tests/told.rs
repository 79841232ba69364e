//! What the built command tells of its own call and of files: hints that can be typed as they stand, and faults of
//! reading and writing in words.
use std::os::unix::process::CommandExt;
use std::process::{Command, Stdio};

const PROGRAM: &str = env!("CARGO_BIN_EXE_preset");

// Elsewhere than on x86-64 `rust/cross` names an emulator.
fn runner() -> Option<String> {
    std::env::var("CARGO_TARGET_X86_64_UNKNOWN_LINUX_GNU_RUNNER").ok()
}

fn command(words: &[&str]) -> Command {
    let runner = runner();
    let mut command = Command::new(runner.as_deref().unwrap_or(PROGRAM));
    command.args(runner.iter().map(|_| PROGRAM)).args(words);
    command.env_remove("PRESET_CALLED").stdin(Stdio::null());
    command
}

fn told(mut command: Command) -> String {
    let answer = command.output().expect("it runs");
    String::from_utf8(answer.stderr).expect("UTF-8")
}

#[test]
fn hints_name_the_command_as_it_was_called() {
    let hint = |called: &str| {
        let mut check = command(&["check", "-"]);
        check.env("PRESET_CALLED", called);
        told(check)
    };
    let mended = "what it means and how it is mended:";
    assert_eq!(hint("./preset"), format!("{mended} ./preset explain 40\n"));
    assert_eq!(
        hint("my tools/preset"),
        format!("{mended} 'my tools/preset' explain 40\n")
    );
    // without the script's word its own counts
    let own = format!("{mended} {PROGRAM} explain 40\n");
    assert_eq!(hint(""), own);
    assert_eq!(told(command(&["check", "-"])), own);
    let mut wrong = command(&["chek"]);
    wrong.env("PRESET_CALLED", "../preset");
    let want = "preset: no command \"chek\"\n../preset --help says how it is called\n";
    assert_eq!(told(wrong), want);
}

// A program may be started under any name, also under none.
#[test]
fn a_first_word_that_is_none_is_not_repeated() {
    if runner().is_some() {
        return;
    }
    for (name, called) in [
        ("", "preset"),
        ("a\u{1b}b", "preset"),
        ("p reset", "'p reset'"),
    ] {
        let mut command = command(&[]);
        command.arg0(name);
        let want = format!("preset: no command\n{called} --help says how it is called\n");
        assert_eq!(told(command), want);
    }
}

#[test]
fn faults_of_files_have_words() {
    let preset = concat!(env!("CARGO_MANIFEST_DIR"), "/../../presets/example.toml");
    let long = "x".repeat(300);
    let read = |file: &str| told(command(&["check", file]));
    let below = format!("{preset}/x");
    for (file, why) in [
        ("/none/x.toml", "there is no such file"),
        ("/", "it is a directory"),
        (&below, "a part of its path is no directory"),
        (&long, "its name is too long"),
    ] {
        assert_eq!(
            read(file),
            format!("preset: {file}: cannot be read: {why}\n")
        );
    }
    let written = |file: &str| told(command(&["map", preset, "--svg", file]));
    for (file, why) in [
        ("/dev/full", "no space is left"),
        ("/none/x.svg", "there is no such directory"),
        ("/", "it is a directory"),
        (&below, "a part of its path is no directory"),
        (&long, "its name is too long"),
    ] {
        let want = format!("preset: {file}: cannot be written: {why}\n");
        assert_eq!(written(file), want);
    }
}

// A shell can close the input, or open it for writing alone; neither is an empty preset. An emulator takes what is
// closed for itself.
#[test]
fn an_input_that_is_not_open_is_told() {
    let inputs = ["0>/dev/null", "<&-"].into_iter();
    let inputs = inputs.take(if runner().is_some() { 1 } else { 2 });
    let runner = runner().unwrap_or_default();
    for input in inputs {
        let mut shell = Command::new("sh");
        shell.args(["-c", &format!("{runner} {PROGRAM} check - {input}")]);
        let want = "preset: -: cannot be read: it is not open for this\n";
        assert_eq!(told(shell), want, "{input}");
    }
}
