//! Pages with commands in them: what they say is what the programs print.
//!
//! Every page is run in a fresh copy of the repository's `examples/`, which
//! holds the wallets alone. So what a command of a page reads is a wallet, or
//! a file that a command above it has written; and every file that is written
//! can be compared with the stored one.

pub mod difference;
pub mod page;
pub mod pipeline;

use std::fs;
use std::path::{Path, PathBuf};

/// The repository's root.
pub fn root() -> &'static Path {
    let package = Path::new(env!("CARGO_MANIFEST_DIR"));
    package
        .ancestors()
        .nth(2)
        .expect("the package lies two directories below the repository root")
}

/// A page that has been run.
pub struct Run {
    /// The page's commands.
    pub commands: Vec<page::Command>,
    /// What each of them printed.
    pub outputs: Vec<Vec<String>>,
    /// The files that they have written, with what is in them.
    pub files: Vec<(PathBuf, Vec<u8>)>,
}

/// Runs the commands of a page, which is named from the root, in the copy of
/// the folder in which it lies.
pub fn run(name: &str, text: &str) -> Result<Run, String> {
    let copy = copy_for(name).map_err(|error| format!("{name}: {error}"))?;
    let place = copy.join(name);
    let folder = place.parent().unwrap_or(&copy);
    let commands = page::commands(text).map_err(|error| format!("{name}: {error}"))?;
    let mut outputs = Vec::new();
    for command in &commands {
        let output = pipeline::run(&command.text, folder)
            .map_err(|error| format!("{name}:{}: {error}", command.line))?;
        outputs.push(output);
    }
    let files = written(&copy).map_err(|error| format!("{name}: {error}"))?;
    Ok(Run {
        commands,
        outputs,
        files,
    })
}

/// The names of the files in `examples/` with this ending, in order.
pub fn examples(ending: &str) -> Vec<String> {
    let folder = fs::read_dir(root().join("examples")).expect("examples/ can be read");
    let names = folder.map(|entry| entry.expect("examples/ can be read").file_name());
    let mut names: Vec<String> = names
        .map(|name| name.to_string_lossy().into_owned())
        .filter(|name| name.ends_with(ending))
        .collect();
    names.sort();
    names
}

/// A fresh folder for a page: a root with the wallets in its `examples/`.
fn copy_for(name: &str) -> std::io::Result<PathBuf> {
    let copy = Path::new(env!("CARGO_TARGET_TMPDIR")).join(name.replace('/', "-"));
    if copy.exists() {
        fs::remove_dir_all(&copy)?;
    }
    fs::create_dir_all(copy.join("examples"))?;
    for wallet in examples(".wallet") {
        let place = Path::new("examples").join(wallet);
        fs::copy(root().join(&place), copy.join(&place))?;
    }
    Ok(copy)
}

/// The files of a copy that are not as the root has the wallets, by their
/// places below it.
fn written(copy: &Path) -> std::io::Result<Vec<(PathBuf, Vec<u8>)>> {
    let mut files = Vec::new();
    for folder in ["", "examples"] {
        for entry in fs::read_dir(copy.join(folder))? {
            let entry = entry?;
            if entry.file_type()?.is_dir() {
                continue;
            }
            let place = Path::new(folder).join(entry.file_name());
            let content = fs::read(entry.path())?;
            let wallet = place.extension().is_some_and(|ending| ending == "wallet");
            if !wallet || fs::read(root().join(&place)).ok().as_ref() != Some(&content) {
                files.push((place, content));
            }
        }
    }
    files.sort();
    Ok(files)
}
