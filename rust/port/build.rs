//! Links libhost.a: of the folder that PRESET_LIB_DIR names, and of no other where it names one; else the newer one of
//! what `scripts/archive --prove` wrote and what is prebuilt.
use std::env;
use std::fs;
use std::path::{Path, PathBuf};
use std::time::SystemTime;

const NAME: &str = "libhost.a";

fn main() {
    println!("cargo::rerun-if-changed=build.rs");
    println!("cargo::rerun-if-env-changed=PRESET_LIB_DIR");
    if let Err(why) = link() {
        // By this the build fails. Were the status 1 too, cargo would print all that was printed here once more.
        println!("cargo::error={why}");
    }
}

fn link() -> Result<(), String> {
    right_machine()?;
    let folders = named_folder()?.map_or_else(own_folders, |folder| vec![folder]);
    let there = folders.iter().filter(|folder| folder.join(NAME).is_file());
    // of two that are as new, the last
    let found = there.max_by_key(|folder| modified(&folder.join(NAME)));
    let folder = found.ok_or_else(|| missing(&folders))?;
    let file = folder.join(NAME);
    println!("cargo::rustc-link-search=native={}", folder.display());
    println!("cargo::rustc-link-lib=static=host");
    println!("cargo::rustc-env=PRESET_LIB={}", file.display());
    Ok(())
}

fn modified(file: &Path) -> Option<SystemTime> {
    fs::metadata(file).and_then(|found| found.modified()).ok()
}

fn right_machine() -> Result<(), String> {
    let part = |name| env::var(format!("CARGO_CFG_TARGET_{name}")).unwrap_or_default();
    if part("ARCH") == "x86_64" && part("OS") == "linux" {
        return Ok(());
    }
    let target = env::var("TARGET").unwrap_or_default();
    Err(format!(
        "{NAME} is for x86-64 Linux, not for {target}: `./cross cargo build` in rust/ builds for that, and so does any \
         command of cargo after ./cross"
    ))
}

fn named_folder() -> Result<Option<PathBuf>, String> {
    let named = env::var_os("PRESET_LIB_DIR").filter(|folder| !folder.is_empty());
    let Some(folder) = named.map(PathBuf::from) else {
        return Ok(None);
    };
    if folder.is_relative() {
        let shown = folder.display();
        return Err(format!(
            "PRESET_LIB_DIR is to begin at the root /, and is {shown}"
        ));
    }
    println!("cargo::rerun-if-changed={}", folder.join(NAME).display());
    Ok(Some(folder))
}

// Folders are watched, since cargo builds anew each time while it watches a file that is not there; for the same reason
// the second is made.
fn own_folders() -> Vec<PathBuf> {
    let here = Path::new(env!("CARGO_MANIFEST_DIR"));
    let root = here.ancestors().nth(2).unwrap_or(here);
    let folders = ["prebuilt", "target/staticlib"].map(|folder| root.join(folder));
    let _ = fs::create_dir_all(&folders[1]);
    for folder in &folders {
        println!("cargo::rerun-if-changed={}", folder.display());
    }
    folders.into()
}

fn missing(folders: &[PathBuf]) -> String {
    let folders = folders.iter().map(|folder| folder.display().to_string());
    let folders: Vec<String> = folders.collect();
    format!(
        "{NAME} is missing in {}: at the repository's root, `git checkout -- prebuilt` brings the prebuilt one back, \
         and `scripts/archive --prove` proves and builds one in target/staticlib by the Rattle kit",
        folders.join(" and ")
    )
}
