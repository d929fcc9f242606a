//! The program `study`, called as a user calls it.

mod common;

use common::{repository, specimen};
use std::fs;
use std::io::Write;
use std::os::unix::fs::{PermissionsExt, symlink};
use std::path::{Path, PathBuf};
use std::process::{Command, Output, Stdio};
use std::sync::atomic::{AtomicU32, Ordering};

/// A folder of one test, removed when the test ends.
struct Folder(PathBuf);

impl Folder {
    fn new() -> Folder {
        static NEXT: AtomicU32 = AtomicU32::new(0);
        let nth = NEXT.fetch_add(1, Ordering::Relaxed);
        let name = format!("study-text-{}-{nth}", std::process::id());
        let folder = std::env::temp_dir().join(name);
        fs::create_dir(&folder).expect("a folder");
        Folder(folder)
    }

    fn file(&self, name: &str, content: &[u8]) -> PathBuf {
        let path = self.0.join(name);
        fs::write(&path, content).expect("a file");
        path
    }

    fn names(&self) -> Vec<String> {
        let entries = fs::read_dir(&self.0).expect("the folder");
        let mut names: Vec<String> = entries
            .map(|entry| entry.unwrap().file_name().into_string().unwrap())
            .collect();
        names.sort();
        names
    }
}

impl Drop for Folder {
    fn drop(&mut self) {
        let _ = fs::remove_dir_all(&self.0);
    }
}

fn study(folder: &Path, words: &[&str]) -> Output {
    study_with(folder, words, b"")
}

/// Calls the program in a folder with these bytes on standard input.
fn study_with(folder: &Path, words: &[&str], input: &[u8]) -> Output {
    let mut child = Command::new(env!("CARGO_BIN_EXE_study"))
        .args(words)
        .current_dir(folder)
        .stdin(Stdio::piped())
        .stdout(Stdio::piped())
        .stderr(Stdio::piped())
        .spawn()
        .expect("the program");
    // A call that does not read its input may have ended.
    let _ = child.stdin.take().unwrap().write_all(input);
    child.wait_with_output().expect("an output")
}

/// Calls the program with standard output to this file.
fn study_to(folder: &Path, words: &[&str], out: &str) -> Output {
    let out = fs::OpenOptions::new().write(true).open(out).unwrap();
    let mut command = Command::new(env!("CARGO_BIN_EXE_study"));
    command.args(words).current_dir(folder).stdout(out);
    command.output().expect("an output")
}

fn specimen_text() -> Vec<u8> {
    fs::read(repository().join("examples/specimen.txt")).unwrap()
}

/// Status 0, these bytes and no message.
fn assert_done(output: &Output, expected: &[u8]) {
    let message = String::from_utf8_lossy(&output.stderr);
    assert_eq!(output.status.code(), Some(0), "{message}");
    assert_eq!(output.stdout, expected);
    assert_eq!(message, "");
}

/// Status 2, nothing on standard output and this in the message.
fn assert_failed(output: &Output, reason: &str) {
    let message = String::from_utf8_lossy(&output.stderr);
    assert_eq!(output.status.code(), Some(2), "{message}");
    assert_eq!(output.stdout, b"");
    assert!(message.contains(reason), "{message}");
}

#[test]
fn bytes_to_standard_output() {
    let folder = Folder::new();
    folder.file("in.txt", &specimen_text());
    for words in [
        &["bytes", "in.txt"][..],
        &["bytes", "in.txt", "-"],
        &["bytes", "in.txt", "/dev/stdout"],
        &["bytes", "--any", "in.txt"],
        &["bytes", "--", "in.txt"],
    ] {
        assert_done(&study(&folder.0, words), &specimen());
    }
    let piped = study_with(&folder.0, &["bytes", "-"], &specimen_text());
    assert_done(&piped, &specimen());
    let wrong = study_with(&folder.0, &["bytes", "-"], b"leak 1");
    assert_failed(&wrong, "study: standard input: line 1: expected leak ");
    assert_eq!(folder.names(), ["in.txt"]);
}

#[test]
fn bytes_to_a_file() {
    let folder = Folder::new();
    folder.file("in.txt", &specimen_text());
    assert_done(&study(&folder.0, &["bytes", "in.txt", "out.study"]), b"");
    assert_eq!(fs::read(folder.0.join("out.study")).unwrap(), specimen());

    let old = folder.file(
        "old.study",
        b"what was there, longer than the study"
            .repeat(9)
            .as_slice(),
    );
    fs::set_permissions(&old, fs::Permissions::from_mode(0o640)).unwrap();
    assert_done(&study(&folder.0, &["bytes", "in.txt", "old.study"]), b"");
    assert_eq!(fs::read(&old).unwrap(), specimen());
    let mode = fs::metadata(&old).unwrap().permissions().mode();
    assert_eq!(mode & 0o777, 0o640);

    symlink("old.study", folder.0.join("link")).unwrap();
    fs::write(&old, b"old").unwrap();
    assert_done(&study(&folder.0, &["bytes", "in.txt", "link"]), b"");
    assert_eq!(fs::read(&old).unwrap(), specimen());
    assert!(
        fs::symlink_metadata(folder.0.join("link"))
            .unwrap()
            .is_symlink()
    );
    assert_eq!(folder.names(), ["in.txt", "link", "old.study", "out.study"]);
}

/// Somebody who reads the old file while it is replaced has the old one whole:
/// the file is another one afterwards.
#[test]
fn a_file_is_replaced_and_not_written_into() {
    let folder = Folder::new();
    folder.file("in.txt", &specimen_text());
    let out = folder.file("out.study", b"old");
    let held = folder.0.join("held");
    fs::hard_link(&out, &held).unwrap();
    assert_done(&study(&folder.0, &["bytes", "in.txt", "out.study"]), b"");
    assert_eq!(fs::read(held).unwrap(), b"old");
    assert_eq!(fs::read(out).unwrap(), specimen());
}

#[test]
fn a_failure_leaves_what_was_there() {
    let folder = Folder::new();
    folder.file("wrong.txt", b"study 1\nleak 1 0\n");
    folder.file("latin.txt", b"study 1\n# m\xb3\n");
    let out = folder.file("out.study", b"old");
    let reasons = [
        (
            "wrong.txt",
            "wrong.txt: line 2: frequency: expected 1 to 10^13",
        ),
        ("latin.txt", "latin.txt: line 2: expected text in UTF-8"),
        ("missing.txt", "missing.txt: "),
        (".", "directory"),
    ];
    for (name, reason) in reasons {
        assert_failed(&study(&folder.0, &["bytes", name, "out.study"]), reason);
        assert_failed(&study(&folder.0, &["bytes", name, "new.study"]), reason);
        assert_eq!(fs::read(&out).unwrap(), b"old");
    }
    assert_eq!(folder.names(), ["latin.txt", "out.study", "wrong.txt"]);
}

#[test]
fn outputs_that_cannot_be_written() {
    let folder = Folder::new();
    folder.file("in.txt", &specimen_text());
    fs::create_dir(folder.0.join("folder")).unwrap();
    symlink("nowhere", folder.0.join("link")).unwrap();
    for (out, reason) in [
        ("folder", "folder: is a directory"),
        ("no/out.study", "no/out.study: its folder does not exist"),
        ("new/", "new/: there is no such folder"),
        ("in.txt/out.study", "in.txt/out.study: "),
        ("link", "leads nowhere"),
        ("", "the name is empty"),
        ("/dev/full", "/dev/full: not written: "),
        ("/sys/out.study", "/sys/out.study: not written: "),
    ] {
        assert_failed(&study(&folder.0, &["bytes", "in.txt", out]), reason);
    }
    let full = study_to(&folder.0, &["bytes", "in.txt"], "/dev/full");
    assert_failed(&full, "standard output: not written: ");
    assert_eq!(folder.names(), ["folder", "in.txt", "link"]);
}

/// Also by another name, and where standard input or output is the file.
#[test]
fn the_text_is_not_its_own_output() {
    let folder = Folder::new();
    let text = folder.file("in.txt", &specimen_text());
    symlink("in.txt", folder.0.join("link")).unwrap();
    fs::hard_link(&text, folder.0.join("hard")).unwrap();
    for out in ["in.txt", "./in.txt", "link", "hard"] {
        let output = study(&folder.0, &["bytes", "in.txt", out]);
        assert_failed(&output, "in.txt: the text itself is named as the output");
    }
    let redirected = |words: &[&str], append: bool| {
        let mut command = Command::new(env!("CARGO_BIN_EXE_study"));
        command.args(words).current_dir(&folder.0);
        command.stdin(fs::File::open(&text).unwrap());
        if append {
            let file = fs::OpenOptions::new().append(true).open(&text).unwrap();
            command.stdout(file);
        }
        command.output().unwrap().status.code()
    };
    assert_eq!(redirected(&["bytes", "-", "in.txt"], false), Some(2));
    assert_eq!(redirected(&["bytes", "in.txt"], true), Some(2));
    assert_eq!(fs::read(&text).unwrap(), specimen_text());
}

#[test]
fn devices_and_fifos_are_written() {
    let folder = Folder::new();
    folder.file("in.txt", &specimen_text());
    assert_done(&study(&folder.0, &["bytes", "in.txt", "/dev/null"]), b"");
    assert!(!fs::metadata("/dev/null").unwrap().is_file());

    let fifo = folder.0.join("fifo");
    let made = Command::new("mkfifo").arg(&fifo).status().expect("mkfifo");
    assert!(made.success());
    let reader = std::thread::spawn({
        let fifo = fifo.clone();
        move || fs::read(fifo).unwrap()
    });
    assert_done(&study(&folder.0, &["bytes", "in.txt", "fifo"]), b"");
    assert_eq!(reader.join().unwrap(), specimen());
    assert!(!fs::metadata(&fifo).unwrap().is_file());
}

#[test]
fn help_version_and_wrong_calls() {
    let folder = Folder::new();
    for words in [&["--help"][..], &["bytes", "--help"], &["show", "--help"]] {
        let output = study(&folder.0, words);
        assert_eq!(output.status.code(), Some(0));
        let text = String::from_utf8(output.stdout).unwrap();
        assert!(text.starts_with("usage: study bytes [--any] IN [OUT]\n"));
        assert!(text.contains("Status: 0 "));
        assert_eq!(output.stderr, b"");
    }
    let version = format!("study {}\n", env!("CARGO_PKG_VERSION"));
    assert_done(&study(&folder.0, &["--version"]), version.as_bytes());
    for words in [
        &[][..],
        &["bytes"],
        &["show"],
        &["byte", "in.txt"],
        &["bytes", "a", "b", "c"],
        &["show", "a", "b"],
        &["--unknown"],
        &["bytes", "--all", "a"],
        &["show", "--any", "a"],
        &["show", "-x"],
    ] {
        assert_failed(&study(&folder.0, words), "usage: study bytes");
    }
}

#[cfg(feature = "desk")]
mod show {
    use super::*;

    #[test]
    fn statuses() {
        let folder = Folder::new();
        folder.file("good.study", &specimen());
        folder.file("cut.study", &specimen()[..97]);
        folder.file("more.study", &[specimen(), vec![0]].concat());
        folder.file("bad.study", &[1, 0, 0, 0, 1, 11]);
        folder.file("empty.study", b"");
        for (name, status, last) in [
            ("good.study", 0, "# closed after 98 bytes\n"),
            ("cut.study", 1, "# refused 8 at 97, line 13 "),
            ("more.study", 1, "# refused 7 at 98, line 14 "),
            ("bad.study", 1, "# refused 1 at 5, line 2 "),
            ("empty.study", 1, "# refused 8 at 0: "),
        ] {
            let output = study(&folder.0, &["show", name]);
            assert_eq!(output.status.code(), Some(status), "{name}");
            assert!(String::from_utf8(output.stdout).unwrap().contains(last));
            assert_eq!(output.stderr, b"", "{name}");
        }
        let piped = study_with(&folder.0, &["show", "-"], &specimen());
        assert_eq!(piped.status.code(), Some(0));
        assert_failed(
            &study(&folder.0, &["show", "missing.study"]),
            "missing.study: ",
        );
        assert_failed(&study(&folder.0, &["show", "."]), "directory");
    }

    #[test]
    fn shown_and_made_again() {
        let folder = Folder::new();
        let bad = [1, 0, 0, 0, 1, 8, 1, 2, 3].repeat(9);
        folder.file("bad.study", &bad);
        let shown = study(&folder.0, &["show", "--all", "bad.study"]);
        assert_eq!(shown.status.code(), Some(1));
        let made = study_with(&folder.0, &["bytes", "--any", "-"], &shown.stdout);
        assert_done(&made, &bad);
    }

    #[test]
    fn text_is_named_as_text() {
        let folder = Folder::new();
        folder.file("in.txt", &specimen_text());
        let output = study(&folder.0, &["show", "in.txt"]);
        assert_eq!(output.status.code(), Some(1));
        let message = String::from_utf8(output.stderr).unwrap();
        assert_eq!(
            message,
            "study: in.txt: this is text: `study bytes in.txt OUT` makes a study of it\n"
        );
    }

    /// The study's own status, and no message.
    #[test]
    fn a_closed_pipe_is_no_error() {
        let folder = Folder::new();
        let opening: &[u8] = &[1, 0, 0, 0, 1];
        let leaks = (0..60_000_u32).flat_map(|n| {
            let number = n.to_be_bytes();
            [&[3], &number[..], &[0, 0, 0, 0, 0, 0, 0, 1, 5, 0, 0, 0]].concat()
        });
        let mut study = [opening, &leaks.collect::<Vec<u8>>()].concat();
        folder.file("open.study", &study);
        let closing = [
            &[7],
            &120_002_u32.to_be_bytes()[..],
            &60_000_u64.to_be_bytes(),
        ];
        study.extend(closing.concat());
        folder.file("good.study", &study);
        for (name, status) in [("good.study", 0), ("open.study", 1)] {
            let mut child = Command::new(env!("CARGO_BIN_EXE_study"))
                .args(["show", name])
                .current_dir(&folder.0)
                .stdout(Stdio::piped())
                .stderr(Stdio::piped())
                .spawn()
                .unwrap();
            drop(child.stdout.take());
            let output = child.wait_with_output().unwrap();
            assert_eq!(output.status.code(), Some(status), "{name}");
            assert_eq!(output.stderr, b"");
        }
    }

    #[test]
    fn a_full_device_is_an_error() {
        let folder = Folder::new();
        folder.file("good.study", &specimen());
        let output = study_to(&folder.0, &["show", "good.study"], "/dev/full");
        assert_failed(&output, "standard output: ");
    }
}
