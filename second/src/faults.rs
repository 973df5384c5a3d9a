//! Planted faults: each is one edit of the model, the judge or the decoder, made in a copy. A run of the edited copy
//! must see it.

use std::fs;
use std::path::{Path, PathBuf};
use std::process::Command;

/// The parts of the program that are hunted apart: each sees the faults in its own files.
pub const GUEST: &str = "guest";
pub const XICS: &str = "xics";

struct Fault {
    name: String,
    file: String,
    old: String,
    new: String,
}

impl Fault {
    fn part(&self) -> &'static str {
        if self.file.starts_with("xics/") {
            XICS
        } else {
            GUEST
        }
    }
}

/// The lists that go with the parts of the program that are built.
fn lists() -> Vec<&'static str> {
    let mut lists = vec!["xics", "holds", "numbers", "frames", "banks"];
    if cfg!(feature = "its") {
        lists.extend(["sound", "its", "save"]);
    }
    if cfg!(feature = "restore") {
        lists.extend(["restore", "explain"]);
    }
    lists
}

/// A list has, for each fault: `fault:` and what it is, `file:` below src, `- ` lines of old text, `+ ` lines of new.
fn parse(text: &str) -> Vec<Fault> {
    let mut faults: Vec<Fault> = Vec::new();
    for line in text.lines() {
        if let Some(name) = line.strip_prefix("fault: ") {
            faults.push(Fault { name: name.into(), file: String::new(), old: String::new(), new: String::new() });
        }
        let Some(fault) = faults.last_mut() else { continue };
        if let Some(file) = line.strip_prefix("file: ") {
            fault.file = file.into();
        } else if let Some(old) = line.strip_prefix("- ") {
            push_line(&mut fault.old, old);
        } else if let Some(new) = line.strip_prefix("+ ") {
            push_line(&mut fault.new, new);
        }
    }
    faults
}

fn push_line(text: &mut String, line: &str) {
    if !text.is_empty() {
        text.push('\n');
    }
    text.push_str(line);
}

fn copy_folder(from: &Path, to: &Path) -> std::io::Result<()> {
    fs::create_dir_all(to)?;
    for entry in fs::read_dir(from)? {
        let entry = entry?;
        let target = to.join(entry.file_name());
        if entry.file_type()?.is_dir() {
            copy_folder(&entry.path(), &target)?;
        } else {
            fs::copy(entry.path(), target)?;
        }
    }
    Ok(())
}

/// Only what the build needs is copied.
fn make_copy(folder: &Path) -> std::io::Result<PathBuf> {
    let copy = std::env::temp_dir().join(format!("second-faults-{}", std::process::id()));
    copy_folder(&folder.join("src"), &copy.join("src"))?;
    for file in ["Cargo.toml", "Cargo.lock", "build.rs"] {
        fs::copy(folder.join(file), copy.join(file))?;
    }
    Ok(copy)
}

fn features() -> &'static str {
    match (cfg!(feature = "its"), cfg!(feature = "restore")) {
        (_, true) => "restore",
        (true, _) => "its",
        _ => "",
    }
}

fn build(copy: &Path) -> Result<(), String> {
    let output = Command::new("cargo")
        .args(["build", "--release", "--offline", "--quiet", "-j1", "--features", features()])
        .env("CARGO_TARGET_DIR", copy.join("target"))
        .env("CARGO_INCREMENTAL", "1")
        // Without it each small edit is optimised again over the whole program.
        .env("CARGO_PROFILE_RELEASE_LTO", "off")
        .env("RUSTFLAGS", "-Awarnings")
        .current_dir(copy)
        .output()
        .map_err(|error| error.to_string())?;
    if output.status.success() {
        return Ok(());
    }
    Err(String::from_utf8_lossy(&output.stderr).lines().take(3).collect::<Vec<_>>().join(" / "))
}

/// Runs a part of the copy at the default budget: whether it failed, and what saw it.
fn check(copy: &Path, part: &str) -> Result<(bool, String), String> {
    build(copy)?;
    let mut program = Command::new(copy.join("target/release/second"));
    let output = program.args(["hunt", part]).output().map_err(|error| error.to_string())?;
    let text = String::from_utf8_lossy(&output.stdout).into_owned();
    let parts = text.lines().find_map(|line| line.strip_prefix("differences: ")).unwrap_or("the run broke off");
    Ok((!output.status.success(), parts.into()))
}

/// Plants one fault, runs, and puts the old text back.
fn plant(copy: &Path, fault: &Fault) -> Result<(bool, String), String> {
    let file = copy.join("src").join(&fault.file);
    let text = fs::read_to_string(&file).map_err(|error| format!("{}: {error}", fault.file))?;
    if fault.old.is_empty() || text.matches(&fault.old).count() != 1 {
        return Err("the old text does not stand exactly once".into());
    }
    fs::write(&file, text.replacen(&fault.old, &fault.new, 1)).map_err(|error| error.to_string())?;
    let result = check(copy, fault.part());
    fs::write(&file, text).map_err(|error| error.to_string())?;
    result
}

/// Without a fault the copy passes, in each part that the faults are in.
fn passes(copy: &Path, faults: &[Fault]) -> Result<(), String> {
    for part in [GUEST, XICS].into_iter().filter(|part| faults.iter().any(|fault| fault.part() == *part)) {
        if check(copy, part)?.0 {
            return Err(format!("the copy without a fault does not pass ({part}): nothing can be told"));
        }
    }
    Ok(())
}

fn run_all(copy: &Path, faults: &[Fault]) -> Result<usize, String> {
    passes(copy, faults)?;
    let mut found = 0;
    for fault in faults {
        match plant(copy, fault) {
            Ok((true, parts)) => {
                found += 1;
                println!("found: {} ({parts})", fault.name);
            }
            Ok((false, _)) => println!("NOT FOUND: {}", fault.name),
            Err(error) => println!("NOT PLANTED: {}: {error}", fault.name),
        }
    }
    Ok(found)
}

/// Plants every fault of the folder's lists, or of those named; the exit status is 0 if all were found.
pub fn run(folder: &str, named: &[String]) -> i32 {
    let folder = Path::new(folder);
    let read = |list: &str| fs::read_to_string(folder.join("faults").join(format!("{list}.edit")));
    let wanted = lists().into_iter().filter(|list| named.is_empty() || named.iter().any(|name| name == list));
    let faults: Vec<Fault> = wanted.flat_map(|list| parse(&read(list).unwrap_or_default())).collect();
    let copy = match make_copy(folder) {
        Ok(copy) => copy,
        Err(error) => {
            println!("no copy could be made: {error}");
            return 1;
        }
    };
    let result = run_all(&copy, &faults);
    let _ = fs::remove_dir_all(&copy);
    let found = result.unwrap_or_else(|error| {
        println!("{error}");
        0
    });
    println!("faults: {found} of {} found", faults.len());
    (found < faults.len() || faults.is_empty()) as i32
}
