//! Finds the archive, or has it made. `CORBASTRIGO_LIB_DIR` names the folder of a libcorbastrigo.a that stands ready; without it
//! `archive.sh` has `rt` prove the crates of this repository, as far as that has not been done, and writes it.
//!
//! What is linked is a copy in cargo's own folder, so that nothing is lost with the repository's target/. Watched are the sources, or the
//! archive that stands ready, and never what `rt` writes: a second build has nothing to do.
use std::env;
use std::fs::{self, File};
use std::io::{self, Write};
use std::os::fd::AsRawFd;
use std::path::{Path, PathBuf};
use std::process::{Command, ExitCode, Stdio};
use std::time::Instant;

const VARIABLE: &str = "CORBASTRIGO_LIB_DIR";
const ARCHIVE: &str = "libcorbastrigo.a";

/// Whether the archive can be linked for a target: its code is for one kind of machine.
pub fn linkable(arch: &str, os: &str) -> Result<(), String> {
    match (arch, os) {
        ("x86_64", "linux") => Ok(()),
        _ => Err(format!("{ARCHIVE} is for x86_64 Linux; there is none for {arch} {os}")),
    }
}

/// Says something at once where a person sits: cargo shows what a script prints only when the script has failed.
fn say(words: &str) {
    if let Ok(mut terminal) = File::options().write(true).open("/dev/tty") {
        // The line of cargo's progress is wiped first. A terminal that takes no words is no reason to stop.
        let _ = writeln!(terminal, "\r\x1b[Kcorbastrigo-sys: {words}");
    }
}

mod system {
    use std::ffi::c_int;

    extern "C" {
        pub fn flock(fd: c_int, operation: c_int) -> c_int;
    }

    pub const LOCK_EX: c_int = 2;
    pub const LOCK_NB: c_int = 4;
}

/// Asks for the one lock of a file; until the file is closed nobody else gets it.
fn lock(file: &File, operation: std::ffi::c_int) -> io::Result<()> {
    // SAFETY: `flock` takes two numbers and touches no memory of ours; the descriptor is open for as long as `file` is borrowed.
    match unsafe { system::flock(file.as_raw_fd(), operation) } {
        0 => Ok(()),
        _ => Err(io::Error::last_os_error()),
    }
}

/// The lock of a folder, which one build holds at a time: two runs of `rt` at once write the same files. It ends with the file.
pub fn alone(folder: &Path) -> io::Result<File> {
    fs::create_dir_all(folder)?;
    let file = File::options().create(true).truncate(false).write(true).open(folder.join("corbastrigo-sys.lock"))?;
    if lock(&file, system::LOCK_EX | system::LOCK_NB).is_ok() {
        return Ok(file);
    }
    say("waiting for another build, which has rt run");
    loop {
        match lock(&file, system::LOCK_EX) {
            Err(error) if error.kind() == io::ErrorKind::Interrupted => {}
            locked => return locked.map(|()| file),
        }
    }
}

/// Has `rt` make the archive.
fn made(repository: &Path) -> Result<(), String> {
    say("rt proves the library and builds it: about four minutes on two cores, half a minute where the proofs are there");
    let status = Command::new(repository.join("archive.sh"))
        .current_dir(repository)
        // Standard output is for what cargo is told.
        .stdout(Stdio::from(io::stderr()))
        .status()
        .map_err(|error| {
            format!("`archive.sh` did not start ({error}): put the Rattle toolchain on the PATH, or set {VARIABLE} to the folder of a {ARCHIVE}")
        })?;
    if status.success() {
        Ok(())
    } else {
        Err(format!("`archive.sh` failed ({status}); what it printed stands below"))
    }
}

/// Copies a file where the copy is not there or is another.
pub fn copied(from: &Path, to: &Path) -> Result<(), String> {
    let said = |path: &Path, error: io::Error| format!("{}: {error}", path.display());
    let bytes = fs::read(from).map_err(|error| said(from, error))?;
    if fs::read(to).is_ok_and(|there| there == bytes) {
        return Ok(());
    }
    fs::write(to, bytes).map_err(|error| said(to, error))
}

/// The archive in a folder that the variable names.
pub fn ready(folder: &Path, out: &Path) -> Result<(), String> {
    let archive = env::current_dir().map_err(|error| error.to_string())?.join(folder).join(ARCHIVE);
    println!("cargo::rerun-if-changed={}", archive.display());
    copied(&archive, out).map_err(|reason| format!("{VARIABLE} names the folder of a {ARCHIVE}, and it cannot be copied: {reason}"))
}

/// What the archive is made from: the script, the list of crates, and of each crate its code, definitions and proofs. A crate's folder `out` is
/// written by `rt` itself, so that a crate's folder as a whole would seem changed after each build.
fn sources(repository: &Path) -> io::Result<Vec<PathBuf>> {
    let mut paths = vec![repository.join("archive.sh"), repository.join("crates.txt")];
    for entry in fs::read_dir(repository.join("crates"))? {
        let folder = entry?.path();
        paths.extend(["src", "specs", "proofs"].map(|part| folder.join(part)).into_iter().filter(|part| part.exists()));
    }
    paths.sort();
    Ok(paths)
}

/// The archive that `rt` makes from the sources of this repository.
fn proved(repository: &Path, out: &Path) -> Result<(), String> {
    for needed in ["archive.sh", "crates", "crates.txt"].map(|name| repository.join(name)) {
        if !needed.exists() {
            return Err(format!(
                "there is no {} to build the library from; set {VARIABLE} to the folder of a {ARCHIVE}",
                needed.display()
            ));
        }
    }
    for source in sources(repository).map_err(|error| format!("{}: {error}", repository.display()))? {
        println!("cargo::rerun-if-changed={}", source.display());
    }
    let target = repository.join("target");
    let held = alone(&target).map_err(|error| format!("{}: {error}", target.display()))?;
    let start = Instant::now();
    made(repository)?;
    let seconds = start.elapsed().as_secs();
    copied(&target.join("staticlib").join(ARCHIVE), out)?;
    drop(held);
    // cargo keeps the line and says it again in later builds, in which the script does not run: it has to be true there too.
    println!(
        "cargo::warning=the library was proved and built by rt in {seconds} s; rt runs again when crates or crates.txt change"
    );
    Ok(())
}

fn variable(name: &str) -> Result<String, String> {
    env::var(name).map_err(|error| format!("{name}: {error}; this script is run by cargo"))
}

/// What the script does, or why it cannot.
fn run() -> Result<(), String> {
    linkable(&variable("CARGO_CFG_TARGET_ARCH")?, &variable("CARGO_CFG_TARGET_OS")?)?;
    println!("cargo::rerun-if-env-changed={VARIABLE}");
    println!("cargo::rerun-if-changed=build.rs");
    let folder = PathBuf::from(variable("OUT_DIR")?);
    let out = folder.join(ARCHIVE);
    match env::var_os(VARIABLE) {
        Some(ready_in) => ready(Path::new(&ready_in), &out)?,
        None => proved(&Path::new(&variable("CARGO_MANIFEST_DIR")?).join("../.."), &out)?,
    }
    println!("cargo::rustc-link-search=native={}", folder.display());
    println!("cargo::rustc-link-lib=static=corbastrigo");
    Ok(())
}

fn main() -> ExitCode {
    match run() {
        Ok(()) => ExitCode::SUCCESS,
        Err(reason) => {
            println!("cargo::error={reason}");
            ExitCode::FAILURE
        }
    }
}
