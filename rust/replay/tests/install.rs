//! The way in: ./preset, ./install and cargo with the prebuilt archive, with a kit that only pretends to prove, and
//! with none. All of it is done in copies of the repository, whose prebuilt archive is the one that these tests are
//! linked with.
use port::ARCHIVE;
use std::fs;
use std::os::unix::fs::{PermissionsExt, symlink};
use std::path::{Path, PathBuf};
use std::process::{Command, Stdio};
use std::sync::LazyLock;
use std::thread;
use std::time::Duration;

// What the command is built from and ./install puts; all names begin at the repository's root.
const COPIED: &str = "preset install LICENSE NOTICE crates.txt crates/*/src docs presets scripts \
                      rust/Cargo.* rust/cross rust/port rust/preset rust/replay";
const OK: &str = "ok: d13x, spi-nor, 2 partitions, 1 component, 1 application\n";
// A kit whose proofs take no time: it writes down that it was asked, and hands out the archive of the test.
const KIT: &str = "#!/bin/sh\n[ \"$1\" != version ] || exec echo kit of the tests\necho \"$@\" >>../../asked\n\
                   mkdir -p out && cat \"$PRESET_TEST_ARCHIVE\" >out/libhost_c.a\n";

#[derive(Debug)]
struct Said {
    status: Option<i32>,
    out: String,
    err: String,
}

fn said(command: &mut Command) -> Said {
    let told = command.stdin(Stdio::null()).output().expect("it starts");
    Said {
        status: told.status.code(),
        out: String::from_utf8(told.stdout).expect("UTF-8"),
        err: String::from_utf8(told.stderr).expect("UTF-8"),
    }
}

fn done(command: &mut Command) -> String {
    let said = said(command);
    assert_eq!(said.status, Some(0), "{command:?}: {said:?}");
    said.out
}

// It ended with 2 and one line, which has these words, and printed nothing else.
fn refused(command: &mut Command, words: &[&str]) {
    let said = said(command);
    let lines = said.err.lines().count();
    assert_eq!(
        (said.status, said.out.as_str(), lines),
        (Some(2), "", 1),
        "{said:?}"
    );
    for word in words {
        assert!(said.err.contains(word), "{word} is not in {}", said.err);
    }
}

fn word(path: &Path) -> &str {
    path.to_str().expect("a plain path")
}

// An empty folder of the test. Copies of the repository have crates, which `rt ci` wants nowhere else in it; so they
// stand outside, in a folder that is named after this checkout.
fn empty(name: &str) -> PathBuf {
    let checkout = env!("CARGO_MANIFEST_DIR").replace('/', "-");
    let folder = std::env::temp_dir()
        .join(format!("ozhandil-install{checkout}"))
        .join(name);
    let _ = fs::remove_dir_all(&folder);
    fs::create_dir_all(&folder).expect("the folder for what is passing can be written");
    folder
}

fn script(file: &Path, text: &str) {
    fs::write(file, text).expect("target/ can be written");
    fs::set_permissions(file, fs::Permissions::from_mode(0o755)).expect("it is the test's own");
}

// The machine's programs without `rt`: of folders that have it, links to all others.
static NO_KIT: LazyLock<String> = LazyLock::new(|| {
    let own = empty("no-kit");
    let all = std::env::var("PATH").expect("a PATH");
    let (with, without): (Vec<&str>, Vec<&str>) = all
        .split(':')
        .partition(|folder| Path::new(folder).join("rt").exists());
    let entries = with
        .iter()
        .flat_map(|folder| fs::read_dir(folder).expect("a folder"));
    for entry in entries.map(|entry| entry.expect("an entry")) {
        if entry.file_name() != "rt" {
            let _ = symlink(entry.path(), own.join(entry.file_name()));
        }
    }
    format!("{}:{}", word(&own), without.join(":"))
});

// And with the one that pretends.
static WITH_KIT: LazyLock<String> = LazyLock::new(|| {
    let own = empty("kit");
    script(&own.join("rt"), KIT);
    format!("{}:{}", word(&own), *NO_KIT)
});

// A copy of what is needed of the repository, with the archive of these tests as the prebuilt one.
fn copy(name: &str) -> PathBuf {
    let root = Path::new(env!("CARGO_MANIFEST_DIR")).join("../..");
    let tree = empty(name);
    let mut shell = Command::new("sh");
    shell.args([
        "-c",
        &format!("cp -a --parents {COPIED} \"$0\""),
        word(&tree),
    ]);
    done(shell.current_dir(&root));
    let emulator = root.join("rust/x86");
    if emulator.exists() {
        symlink(emulator, tree.join("rust/x86")).expect("target/ can be written");
    }
    let built = tree.join("target/staticlib");
    fs::create_dir_all(&built).expect("target/ can be written");
    fs::create_dir_all(tree.join("prebuilt")).expect("target/ can be written");
    fs::copy(ARCHIVE, built.join("libhost.a")).expect("an archive");
    // as on x86-64, whatever this machine is
    script(&tree.join("uname"), "#!/bin/sh\necho x86_64\n");
    let path = format!("{}:{}", word(&tree), *WITH_KIT);
    done(
        run(&tree, "./scripts/prebuilt", &["--built"])
            .env("PATH", path)
            .env("PRESET_TEST_ARCHIVE", ARCHIVE),
    );
    fs::remove_dir_all(tree.join("target")).expect("it is the test's own");
    tree
}

// The one that is built in; whoever changes something takes a copy of his own.
static TREE: LazyLock<PathBuf> = LazyLock::new(|| copy("tree"));

// A program where the folder is the one to stand in, without a kit and without what the caller chose.
fn run(folder: &Path, program: &str, words: &[&str]) -> Command {
    let target = Path::new(env!("CARGO_TARGET_TMPDIR")).join("install/target");
    let mut command = Command::new("env");
    command.arg(program).args(words).current_dir(folder);
    command
        .env("PATH", &*NO_KIT)
        .env("CARGO_TARGET_DIR", target)
        .env("PRESET_TEST_ARCHIVE", ARCHIVE);
    for name in ["PRESET_LIB_DIR", "PRESET_CALLED", "DESTDIR"] {
        command.env_remove(name);
    }
    command
}

fn with_kit(folder: &Path, program: &str, words: &[&str]) -> Command {
    let mut command = run(folder, program, words);
    command.env("PATH", &*WITH_KIT);
    command
}

// A program for x86-64; elsewhere `rust/cross` names an emulator.
fn built(program: &Path, words: &[&str]) -> Command {
    let runner = std::env::var("CARGO_TARGET_X86_64_UNKNOWN_LINUX_GNU_RUNNER");
    let mut command = Command::new(runner.as_deref().unwrap_or("env"));
    command.arg(program).args(words);
    command
}

// Whoever has cargo alone gets the answer, and nothing is said of the rest.
#[test]
fn the_prebuilt_archive_answers_without_the_kit() {
    let said = said(&mut run(
        &TREE,
        "./preset",
        &["check", "presets/example.toml"],
    ));
    let want = format!("presets/example.toml: {OK}");
    assert_eq!((said.status, said.out), (Some(0), want), "{}", said.err);
    assert_eq!(said.err, "");
}

#[test]
fn a_symbolic_link_runs_it_from_elsewhere() {
    let folder = empty("elsewhere");
    symlink(TREE.join("preset"), folder.join("linked")).expect("target/ can be written");
    fs::copy(TREE.join("presets/example.toml"), folder.join("my.toml")).expect("an example");
    let got = done(&mut run(&folder, "./linked", &["check", "my.toml"]));
    assert_eq!(got, format!("my.toml: {OK}"));
}

// A copy in which nothing is built: a script stands in for the program, and cargo is not asked.
fn with_stand_in(name: &str, text: &str) -> (PathBuf, PathBuf) {
    let tree = copy(name);
    let program = tree.join("program");
    script(&program, text);
    let build = format!("#!/bin/sh\necho \"$@\" >>built\necho {}\n", word(&program));
    script(&tree.join("scripts/build"), &build);
    script(&tree.join("rust/cross"), "#!/bin/sh\nexec \"$@\"\n");
    (tree, program)
}

#[test]
fn the_program_is_told_how_it_was_called() {
    let tells = "#!/bin/sh\necho \"$PRESET_CALLED\" \"$@\"\n";
    let ((tree, program), folder) = (with_stand_in("called", tells), empty("calling"));
    symlink(tree.join("preset"), folder.join("linked")).expect("target/ can be written");
    let runner = "CARGO_TARGET_X86_64_UNKNOWN_LINUX_GNU_RUNNER";
    let called = |words: &[&str]| done(run(&folder, "./linked", words).env_remove(runner));
    assert_eq!(called(&["check", "a b"]), "./linked check a b\n");
    assert_eq!(called(&["--prove", "plan", "x"]), "./linked plan x\n");
    let places = called(&["--prove"]);
    assert!(places.contains(word(&program)), "{places}");
    assert!(places.contains("target/staticlib/libhost.a"), "{places}");
    let asked = fs::read_to_string(folder.join("built")).expect("its notes");
    assert_eq!(asked, "\n--prove\n--prove\n");
}

#[test]
fn what_does_not_fit_is_not_taken_without_the_kit() {
    let tree = copy("changed");
    let check = || run(&tree, "./preset", &["check", "presets/example.toml"]);
    let kit = "the Rattle kit is missing";
    refused(&mut run(&tree, "./preset", &["--prove"]), &[kit]);
    let source = tree.join("crates/host/src/lib.rt");
    let text = fs::read_to_string(&source).expect("a source");
    fs::write(&source, format!("{text}\n")).expect("target/ can be written");
    refused(
        &mut check(),
        &["the sources below crates/ were changed", kit],
    );
    fs::write(&source, &text).expect("target/ can be written");
    let archive = tree.join("prebuilt/libhost.a");
    let mut bytes = fs::read(&archive).expect("an archive");
    bytes[1_000] ^= 1;
    fs::write(&archive, bytes).expect("target/ can be written");
    refused(&mut check(), &["prebuilt/libhost.a is damaged", kit]);
    fs::remove_file(&archive).expect("it is the test's own");
    refused(&mut check(), &["prebuilt/ lacks libhost.a", kit]);
}

// Where the archive is, and how often the kit was asked until then.
fn picked(tree: &Path, words: &[&str]) -> (String, usize) {
    let folder = done(&mut with_kit(tree, "./scripts/archive", words));
    let folder = folder.trim_end().strip_prefix(word(tree));
    let asked = fs::read_to_string(tree.join("asked")).unwrap_or_default();
    (
        folder.expect("a folder of the tree").to_owned(),
        asked.lines().count(),
    )
}

// Files that are written closer to each other may have the same time.
fn tick() {
    thread::sleep(Duration::from_millis(50));
}

#[test]
fn the_kit_is_asked_where_it_is_due() {
    let tree = copy("picked");
    let (prebuilt, proved) = ("/prebuilt".to_owned(), "/target/staticlib".to_owned());
    assert_eq!(picked(&tree, &[]), (prebuilt.clone(), 0));
    assert_eq!(picked(&tree, &["--prove"]), (proved.clone(), 1));
    assert_eq!(picked(&tree, &["--prove"]), (proved.clone(), 1));
    assert_eq!(picked(&tree, &[]), (proved.clone(), 1));
    // older than a source, but that is the same as ever
    tick();
    done(Command::new("touch").arg(tree.join("crates.txt")));
    assert_eq!(picked(&tree, &[]), (prebuilt, 1));
    assert_eq!(picked(&tree, &["--prove"]), (proved.clone(), 2));
    tick();
    let source = tree.join("crates/host/src/new.rt");
    fs::write(source, "").expect("target/ can be written");
    assert_eq!(picked(&tree, &[]), (proved.clone(), 3));
    assert_eq!(picked(&tree, &[]), (proved, 3));
    let own = done(run(&tree, "./scripts/archive", &[]).env("PRESET_LIB_DIR", "own"));
    assert_eq!(own.trim_end(), word(&tree.join("own")));
}

// What `scripts/prebuilt --check` says of a copy on a machine of that name.
fn checked(tree: &Path, machine: &str) -> (Option<i32>, String) {
    script(&tree.join("uname"), "#!/bin/sh\necho ${MACHINE:-x86_64}\n");
    let path = format!("{}:{}", word(tree), *WITH_KIT);
    let mut command = run(tree, "./scripts/prebuilt", &["--check"]);
    let said = said(command.env("PATH", &path).env("MACHINE", machine));
    (said.status, said.out)
}

fn put(tree: &Path, name: &str, bytes: &[u8]) {
    fs::write(tree.join(name), bytes).expect("target/ can be written");
}

// Another archive with its own SHA-256: only bytes that were made alike can be held together.
#[test]
fn bytes_of_one_machine_and_one_kit_are_compared() {
    let tree = copy("compared");
    let same = "prebuilt/libhost.a is the archive that was proved\n";
    assert_eq!(checked(&tree, ""), (Some(0), same.into()));
    let archive = fs::read(tree.join("prebuilt/libhost.a")).expect("an archive");
    put(
        &tree,
        "prebuilt/libhost.a",
        &[archive.as_slice(), b"more"].concat(),
    );
    let sums = "cd prebuilt && sha256sum libhost.a >SHA256SUMS";
    done(&mut run(&tree, "sh", &["-c", sums]));
    let (status, out) = checked(&tree, "");
    assert!(
        status == Some(1) && out.contains("not the archive"),
        "{out}"
    );
    let (status, out) = checked(&tree, "aarch64");
    assert!(
        status == Some(0) && out.contains("was not compared"),
        "{out}"
    );
    let made = fs::read_to_string(tree.join("prebuilt/MADE")).expect("what it was made from");
    put(
        &tree,
        "prebuilt/MADE",
        made.replace("kit of", "older kit of").as_bytes(),
    );
    let kits = "it was made by the kit older kit of the tests, and this is kit of the tests";
    let (status, out) = checked(&tree, "");
    assert!(status == Some(0) && out.contains(kits), "{out}");
}

#[test]
fn sum_and_sources_are_held_on_every_machine() {
    let tree = copy("held");
    put(&tree, "prebuilt/libhost.a", b"");
    let (status, out) = checked(&tree, "aarch64");
    assert!(status == Some(1) && out.contains("SHA-256"), "{out}");
    put(&tree, "crates/host/src/new.rt", b"");
    let (status, out) = checked(&tree, "aarch64");
    assert!(
        status == Some(1) && out.contains("digest of the sources"),
        "{out}"
    );
}

// Where cargo finds the archive, by what the build script has printed.
fn linked(tree: &Path) -> String {
    let words = ["cargo", "check", "--quiet", "--offline", "-p", "port"];
    let own = tree.join("own");
    let mut cargo = run(&tree.join("rust"), "./cross", &words);
    done(cargo.env("CARGO_TARGET_DIR", &own));
    let printed = "find own -path '*/port-*/output' -exec sed -n 's/.*link-search=native=//p' {} +";
    let folder = done(&mut run(tree, "sh", &["-c", printed]));
    let folder = folder.trim_end().strip_prefix(word(tree));
    folder.unwrap_or_default().into()
}

#[test]
fn cargo_links_the_newer_archive() {
    let tree = copy("newer");
    assert_eq!(linked(&tree), "/prebuilt");
    let archive = fs::read(ARCHIVE).expect("an archive");
    fs::create_dir_all(tree.join("target/staticlib")).expect("target/ can be written");
    put(&tree, "target/staticlib/libhost.a", &archive);
    assert_eq!(linked(&tree), "/target/staticlib");
    put(&tree, "prebuilt/libhost.a", &archive);
    assert_eq!(linked(&tree), "/prebuilt");
}

// Cargo alone: what the build script says is one line, and no panic.
#[test]
fn cargo_says_in_a_line_what_is_missing() {
    let rust = TREE.join("rust");
    let none = empty("none");
    let cargo = |folder: &str, more: &[&str]| {
        let words = [
            &["cargo", "check", "--quiet", "--offline", "-p", "port"],
            more,
        ]
        .concat();
        let mut command = run(&rust, "./cross", &words);
        let said = said(command.env("PRESET_LIB_DIR", folder));
        assert_eq!(said.status, Some(101), "{said:?}");
        let lines = said.err.lines().filter(|line| line.contains("port@"));
        let lines: Vec<String> = lines.map(String::from).collect();
        assert_eq!(lines.len(), 1, "{said:?}");
        assert!(!said.err.contains("panicked"), "{said:?}");
        lines.concat()
    };
    let missing = cargo(word(&none), &[]);
    for part in [
        word(&none),
        "libhost.a is missing",
        "scripts/archive --prove",
        "prebuilt",
    ] {
        assert!(missing.contains(part), "{missing}");
    }
    let relative = cargo("none", &[]);
    assert!(relative.contains("PRESET_LIB_DIR"), "{relative}");
    let other = cargo(word(&none), &["--target", "aarch64-unknown-linux-gnu"]);
    assert!(
        other.contains("x86-64 Linux") && other.contains("./cross"),
        "{other}"
    );
}

// All that is below a folder, in byte order.
fn below(folder: &Path) -> Vec<String> {
    let mut find = Command::new("find");
    find.args([word(folder), "-mindepth", "1", "-printf", "%P\\n"]);
    let mut all: Vec<String> = done(&mut find).lines().map(String::from).collect();
    all.sort();
    all
}

const PUT: [&str; 11] = [
    "bin/preset",
    "include/preset.h",
    "lib/libpreset.a",
    "lib/pkgconfig/preset.pc",
    "share/bash-completion/completions/preset",
    "share/doc/preset/INSTALLED",
    "share/doc/preset/LICENSE",
    "share/doc/preset/NOTICE",
    "share/fish/vendor_completions.d/preset.fish",
    "share/man/man1/preset.1",
    "share/zsh/site-functions/_preset",
];

fn install(words: &[&str]) -> Command {
    run(&TREE, "./install", words)
}

#[test]
fn what_is_installed_works_and_goes_away_again() {
    let folder = empty("installed");
    let prefix = folder.join("new/prefix");
    done(&mut install(&[word(&prefix)]));
    let files = below(&prefix);
    let files: Vec<&String> = files.iter().filter(|f| prefix.join(f).is_file()).collect();
    assert_eq!(files, PUT);
    let example = TREE.join("presets/example.toml");
    let got = done(&mut built(
        &prefix.join("bin/preset"),
        &["check", word(&example)],
    ));
    assert_eq!(got, format!("{}: {OK}", word(&example)));
    let got = done(&mut built(&compiled(&prefix, &folder), &[word(&example)]));
    assert!(got.starts_with("21 values, stem loader\n"), "{got}");
    fs::remove_file(folder.join("example")).expect("it is the test's own");
    // once more, over itself
    done(&mut install(&[word(&prefix)]));
    done(&mut install(&["--remove", word(&prefix)]));
    assert_eq!(below(&folder), [""; 0]);
    refused(&mut install(&["--remove", word(&prefix)]), &["INSTALLED"]);
}

// The flags of the file for pkg-config; by hand where there is no such program.
fn flags(prefix: &Path) -> Vec<String> {
    let folder = prefix.join("lib/pkgconfig");
    let mut ask = Command::new("pkg-config");
    ask.args(["--cflags", "--libs", "preset"]);
    match ask.env("PKG_CONFIG_PATH", folder).output() {
        Ok(told) => {
            assert!(told.status.success(), "{told:?}");
            let flags = String::from_utf8(told.stdout).expect("UTF-8");
            flags.split_whitespace().map(String::from).collect()
        }
        Err(_) => {
            let prefix = word(prefix);
            let flags = [format!("-I{prefix}/include"), format!("-L{prefix}/lib")];
            flags.into_iter().chain(["-lpreset".into()]).collect()
        }
    }
}

fn compiled(prefix: &Path, folder: &Path) -> PathBuf {
    let set = |name| std::env::var(format!("CARGO_TARGET_X86_64_UNKNOWN_LINUX_GNU_{name}"));
    let out = folder.join("example");
    let mut cc = Command::new(set("LINKER").unwrap_or("cc".into()));
    let machine = set("RUSTFLAGS").unwrap_or_default();
    let machine = machine
        .split(' ')
        .filter_map(|f| f.strip_prefix("-Clink-arg="));
    cc.args(machine).args(["-Wall", "-Wextra", "-Werror"]);
    cc.arg(TREE.join("rust/replay/tests/c/example.c"));
    cc.args(flags(prefix)).arg("-o").arg(&out);
    done(&mut cc);
    out
}

// What others put there stays, also where it is in the way.
#[test]
fn nothing_of_others_is_touched() {
    let folder = empty("others");
    let (own, prefix) = (folder.join("bin/other"), word(&folder));
    fs::create_dir_all(folder.join("bin")).expect("target/ can be written");
    fs::create_dir_all(folder.join("share/man")).expect("target/ can be written");
    fs::write(&own, "other").expect("target/ can be written");
    let before = below(&folder);
    done(&mut install(&[prefix]));
    fs::write(folder.join("bin/preset"), "mine").expect("target/ can be written");
    let in_the_way = ["bin/preset is there", "nothing was changed"];
    refused(&mut install(&[prefix]), &in_the_way);
    let said = said(&mut install(&["--remove", prefix]));
    assert_eq!((said.status, said.out.as_str()), (Some(0), ""));
    assert!(said.err.contains("bin/preset was changed"), "{}", said.err);
    refused(&mut install(&[prefix]), &in_the_way);
    let mine = fs::read(folder.join("bin/preset")).expect("it is left");
    assert_eq!(mine, b"mine");
    fs::remove_file(folder.join("bin/preset")).expect("it is the test's own");
    assert_eq!(below(&folder), before);
}

#[test]
fn packagers_have_it_below_a_folder_of_theirs() {
    let folder = empty("packaged");
    let stage = folder.join("stage");
    let at = |words: &[&str]| done(install(words).env("DESTDIR", word(&stage)));
    at(&["/usr/"]);
    assert!(stage.join("usr/bin/preset").is_file());
    let told = fs::read_to_string(stage.join("usr/lib/pkgconfig/preset.pc"));
    assert!(told.expect("a file").starts_with("prefix=/usr\n"));
    at(&["--remove", "/usr"]);
    assert_eq!(below(&folder), [""; 0]);
}

#[test]
fn on_another_machine_the_emulator_is_named() {
    let (tree, _) = with_stand_in("machine", "#!/bin/sh\n");
    let prefix = empty("emulated");
    script(&tree.join("uname"), "#!/bin/sh\necho aarch64\n");
    let path = format!("{}:{}", word(&tree), *NO_KIT);
    let said = said(run(&tree, "./install", &[word(&prefix)]).env("PATH", path));
    assert_eq!(
        (said.status, said.err.lines().count()),
        (Some(0), 1),
        "{said:?}"
    );
    assert!(said.err.contains("needs an emulator"), "{said:?}");
}

#[test]
fn a_prefix_that_cannot_be_is_told() {
    let file = word(&TREE.join("NOTICE")).to_owned();
    refused(&mut install(&[]), &["PREFIX is missing"]);
    refused(&mut install(&["--remove"]), &["PREFIX is missing"]);
    refused(
        &mut install(&["relative"]),
        &["begin at the root", "relative"],
    );
    refused(&mut install(&["--prefix"]), &["no option --prefix"]);
    refused(&mut install(&[&file]), &[&file]);
    refused(&mut install(&["/proc/preset"]), &["/proc"]);
}
