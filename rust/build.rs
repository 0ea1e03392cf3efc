//! Links libtns.a. The variable TNS_ARCHIVE can name it by its full path. Without it the archive is the
//! repository's, which `rt lib` proves and builds in crates/tns_c whenever a crate has changed.
//!
//! cargo runs this again if the named archive changes, or else a source of the crates. It does not watch what rt
//! makes, in crates/*/out: rt writes the archive anew at each call, so no build would ever be up to date. The crate
//! links a copy, since rt can also remove its own, and cargo would not notice.

use std::env;
use std::fs::{self, File};
use std::io;
use std::path::{Path, PathBuf};
use std::process::{exit, Command, Stdio};

const HOW_TO_NAME: &str = "set TNS_ARCHIVE to the full path of libtns.a";

fn main() {
    if let Err(why) = link() {
        eprintln!("gillsextant: {why}");
        exit(1);
    }
}

fn link() -> Result<(), String> {
    println!("cargo:rerun-if-changed=build.rs");
    println!("cargo:rerun-if-env-changed=TNS_ARCHIVE");
    // Of the machine that the crate is built for: this script may run on another.
    let processor = of_cargo("CARGO_CFG_TARGET_ARCH")?;
    let system = of_cargo("CARGO_CFG_TARGET_OS")?;
    if processor != "x86_64" || system != "linux" {
        return Err(format!(
            "libtns.a is made for Linux on x86-64 alone, and the target is {system} on {processor}; \
             --target x86_64-unknown-linux-gnu is one that can link it"
        ));
    }
    let out = PathBuf::from(of_cargo("OUT_DIR")?);
    let archive = match env::var_os("TNS_ARCHIVE") {
        Some(named) => of_caller(PathBuf::from(named))?,
        None => of_repository(&out)?,
    };
    let copy = out.join("libtns.a");
    let bytes =
        fs::read(&archive).map_err(|why| format!("cannot read {}: {why}", archive.display()))?;
    fs::write(&copy, bytes).map_err(|why| format!("cannot write {}: {why}", copy.display()))?;
    println!("cargo:rustc-link-search=native={}", out.display());
    println!("cargo:rustc-link-lib=static=tns");
    Ok(())
}

/// A variable that cargo sets for build scripts.
fn of_cargo(name: &str) -> Result<String, String> {
    env::var(name).map_err(|why| format!("the variable {name}, which cargo sets: {why}"))
}

/// The archive that TNS_ARCHIVE names.
fn of_caller(archive: PathBuf) -> Result<PathBuf, String> {
    if archive.as_os_str().is_empty() {
        return Err(format!("TNS_ARCHIVE is empty; {HOW_TO_NAME}, or unset it"));
    }
    let name = archive.display();
    if archive.is_relative() {
        return Err(format!(
            "TNS_ARCHIVE is the relative path {name}; {HOW_TO_NAME}"
        ));
    }
    println!("cargo:rerun-if-changed={name}");
    match fs::metadata(&archive) {
        Err(why) => Err(format!(
            "TNS_ARCHIVE names no file that can be read: {name}: {why}"
        )),
        Ok(found) if found.is_dir() => {
            Err(format!("TNS_ARCHIVE names a folder: {name}; {HOW_TO_NAME}"))
        }
        Ok(_) => Ok(archive),
    }
}

/// The archive that rt makes of this crate's repository.
fn of_repository(out: &Path) -> Result<PathBuf, String> {
    let root = Path::new(&of_cargo("CARGO_MANIFEST_DIR")?).join("..");
    let list = root.join("crates.txt");
    if !list.exists() {
        return Err(format!(
            "{} is missing, so this crate is not in its repository, where rt makes libtns.a; {HOW_TO_NAME}",
            list.display()
        ));
    }
    println!("cargo:rerun-if-changed={}", list.display());
    for folder in sources(&root.join("crates"))? {
        println!("cargo:rerun-if-changed={}", folder.display());
    }

    // cargo would take what rt prints for instructions.
    let log = out.join("rt.log");
    let unwritten = |why: io::Error| format!("cannot write {}: {why}", log.display());
    let output = File::create(&log).map_err(unwritten)?;
    let errors = output.try_clone().map_err(unwritten)?;
    let ended = Command::new("rt")
        .arg("lib")
        .current_dir(root.join("crates/tns_c"))
        .stdin(Stdio::null())
        .stdout(output)
        .stderr(errors)
        .status();
    match ended {
        Err(why) if why.kind() == io::ErrorKind::NotFound => Err(format!(
            "rt is not on the PATH, and it makes libtns.a; install the Rattle kit, or {HOW_TO_NAME}"
        )),
        Err(why) => Err(format!("rt cannot be started: {why}")),
        Ok(status) if !status.success() => Err(format!(
            "`rt lib` failed in crates/tns_c ({status}). Its last lines:\n\n{}\n\nThe rest is in {}",
            last_lines(&log),
            log.display()
        )),
        Ok(_) => Ok(root.join("crates/tns_c/out/libtns_c.a")),
    }
}

/// The folders of the crates that have sources.
fn sources(crates: &Path) -> Result<Vec<PathBuf>, String> {
    let unread = |why: io::Error| format!("cannot read {}: {why}", crates.display());
    let mut folders = Vec::new();
    for one in fs::read_dir(crates).map_err(unread)? {
        let one = one.map_err(unread)?.path();
        for part in ["src", "specs", "proofs"] {
            let folder = one.join(part);
            if folder.is_dir() {
                folders.push(folder);
            }
        }
    }
    folders.sort();
    Ok(folders)
}

fn last_lines(log: &Path) -> String {
    let bytes = fs::read(log).unwrap_or_default();
    let text = String::from_utf8_lossy(&bytes);
    let lines: Vec<&str> = text.lines().collect();
    lines[lines.len().saturating_sub(10)..].join("\n")
}
