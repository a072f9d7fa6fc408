//! The parts of the build script that decide something.
#[allow(dead_code)]
#[path = "../build.rs"]
mod build;

use std::fs;
use std::path::PathBuf;
use std::sync::mpsc;
use std::thread;
use std::time::Duration;

/// An empty folder of a test's own.
fn folder(name: &str) -> PathBuf {
    let folder = PathBuf::from(env!("CARGO_TARGET_TMPDIR")).join(name);
    // What an earlier run left; the first has nothing to remove.
    let _ = fs::remove_dir_all(&folder);
    fs::create_dir_all(&folder).expect("a folder can be made");
    folder
}

#[test]
fn another_machine_is_refused_by_name() {
    assert_eq!(build::linkable("x86_64", "linux"), Ok(()));
    for (arch, os) in [("aarch64", "linux"), ("x86_64", "macos"), ("x86", "linux"), ("x86_64", "windows")] {
        let reason = build::linkable(arch, os).expect_err("no archive for it");
        assert!(reason.contains("x86_64 Linux") && reason.ends_with(&format!("{arch} {os}")), "{reason}");
    }
}

#[test]
fn a_folder_without_the_archive_is_named() {
    let empty = folder("empty");
    let reason = build::ready(&empty, &empty.join("copy")).expect_err("nothing is there");
    assert!(reason.contains("CORBASTRIGO_LIB_DIR") && reason.contains(&*empty.to_string_lossy()), "{reason}");
}

#[test]
fn an_archive_is_copied_where_it_changed() {
    let here = folder("copied");
    let (archive, copy) = (here.join("libcorbastrigo.a"), here.join("copy"));
    let written = || fs::metadata(&copy).and_then(|told| told.modified()).expect("the copy is there");
    fs::write(&archive, "one").expect("a file can be written");
    build::ready(&here, &copy).expect("copied");
    let first = written();
    thread::sleep(Duration::from_millis(20));
    build::ready(&here, &copy).expect("the same");
    assert_eq!(written(), first);
    fs::write(&archive, "two").expect("a file can be written");
    build::ready(&here, &copy).expect("copied");
    assert_eq!(fs::read(&copy).expect("the copy is there"), b"two");
}

#[test]
fn one_build_waits_for_the_other() {
    let here = folder("alone");
    let held = build::alone(&here).expect("the first has it");
    let (sender, receiver) = mpsc::channel();
    let waiting = thread::spawn(move || {
        let held = build::alone(&here).expect("the second gets it");
        sender.send(()).expect("somebody listens");
        drop(held);
    });
    assert!(receiver.recv_timeout(Duration::from_millis(200)).is_err(), "both had the lock");
    drop(held);
    receiver.recv_timeout(Duration::from_secs(20)).expect("the second gets it");
    waiting.join().expect("it ended well");
}
