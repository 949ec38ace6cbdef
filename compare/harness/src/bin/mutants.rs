//! mutants [NAME]: shows that the comparison finds wrong programs, or the one named.
//!
//! Each file of compare/mutants is an edit of one line of the independent program. The workspace is
//! copied, the edit made, and the short comparison run on the copy, which must end with a mismatch.

use std::fs;
use std::io;
use std::path::{Path, PathBuf};
use std::process::{Command, ExitCode};

/// The copy is compared with what this program was built with.
const FEATURES: &[&str] = if cfg!(feature = "standin") {
    &["--features", "harness/standin"]
} else if cfg!(feature = "product") {
    &["--features", "harness/product"]
} else {
    &[]
};

struct Edit {
    name: String,
    why: String,
    file: String,
    old: String,
    new: String,
}

fn main() -> io::Result<ExitCode> {
    let root = Path::new(env!("CARGO_MANIFEST_DIR")).join("..");
    let exe = std::env::current_exe()?;
    let copy = exe.with_file_name("mutants-copy");
    let mut survived = Vec::new();
    let mut edits = edits(&root.join("mutants"))?;
    if let Some(name) = std::env::args().nth(1) {
        edits.retain(|edit| edit.name == name);
    }
    for edit in &edits {
        copy_workspace(&root, &copy)?;
        apply(edit, &copy.join("paper/src").join(&edit.file))?;
        match found(&copy)? {
            Some(mismatch) => println!("found     {}: {}\n          {mismatch}", edit.name, edit.why),
            None => {
                println!("SURVIVED  {}: {}", edit.name, edit.why);
                survived.push(edit.name.as_str());
            }
        }
    }
    println!("mutants: {} of {} found", edits.len() - survived.len(), edits.len());
    Ok(if survived.is_empty() { ExitCode::SUCCESS } else { ExitCode::FAILURE })
}

fn edits(folder: &Path) -> io::Result<Vec<Edit>> {
    let mut paths: Vec<PathBuf> =
        fs::read_dir(folder)?.map(|entry| entry.map(|e| e.path())).collect::<Result<_, _>>()?;
    paths.sort();
    paths.iter().map(|path| read(path)).collect()
}

fn read(path: &Path) -> io::Result<Edit> {
    let text = fs::read_to_string(path)?;
    let field = |name: &str| {
        let line = text.lines().find_map(|line| line.strip_prefix(name));
        line.map(str::to_string).ok_or_else(|| io::Error::other(format!("{}: no {name}", path.display())))
    };
    let name = path.file_stem().unwrap_or_default().to_string_lossy().into_owned();
    Ok(Edit {
        name,
        why: field("why: ")?,
        file: field("file: ")?,
        old: field("old: ")?,
        new: field("new: ")?,
    })
}

/// The old text must stand there exactly once, so that an edit that no longer fits shows.
fn apply(edit: &Edit, path: &Path) -> io::Result<()> {
    let text = fs::read_to_string(path)?;
    if text.matches(&edit.old).count() != 1 {
        return Err(io::Error::other(format!("{}: its old text is not in {} once", edit.name, edit.file)));
    }
    fs::write(path, text.replace(&edit.old, &edit.new))
}

/// Sources alone, and only files whose text differs, so that little is built again.
fn copy_workspace(from: &Path, to: &Path) -> io::Result<()> {
    fs::create_dir_all(to)?;
    for entry in fs::read_dir(from)? {
        let entry = entry?;
        let (source, name) = (entry.path(), entry.file_name());
        let target = to.join(&name);
        if source.is_dir() {
            if name != "mutants" && name != "target" {
                copy_workspace(&source, &target)?;
            }
        } else {
            let text = fs::read(&source)?;
            if fs::read(&target).ok().as_deref() != Some(&text) {
                fs::write(&target, text)?;
            }
        }
    }
    Ok(())
}

/// Builds and runs the copy; the first line of the mismatch it found.
fn found(copy: &Path) -> io::Result<Option<String>> {
    let target = copy.join("target");
    let mut build = Command::new("cargo");
    build.args(["build", "--quiet", "--offline", "--release"]);
    build.args(["--bin", "compare", "--bin", "baseline-sheet", "--bin", "baseline-plan"]);
    build.args(FEATURES);
    build.current_dir(copy).env("CARGO_TARGET_DIR", &target);
    if std::env::var_os("SWIVELCRANE_LIB").is_none() {
        build.env("SWIVELCRANE_LIB", concat!(env!("CARGO_MANIFEST_DIR"), "/../../target/staticlib"));
    }
    build.env("CARGO_PROFILE_RELEASE_OPT_LEVEL", "1").env("RUSTFLAGS", "-Awarnings");
    if !build.status()?.success() {
        return Err(io::Error::other("the edited program does not build"));
    }
    let run = Command::new(target.join("release/compare")).arg("--short").output()?;
    let output = String::from_utf8_lossy(&run.stdout).into_owned();
    let mismatch = output.lines().find(|line| line.starts_with("MISMATCH"));
    Ok(mismatch.map(|line| line.chars().take(160).collect()))
}
