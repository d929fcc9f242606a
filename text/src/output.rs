//! A file written whole or not at all.

use std::fs::{self, File, Metadata, OpenOptions};
use std::io::{self, ErrorKind, Write};
use std::os::fd::AsFd;
use std::os::unix::ffi::OsStrExt;
use std::os::unix::fs::MetadataExt;
use std::path::{Path, PathBuf};

/// Where bytes are written.
#[derive(Debug)]
pub enum Output {
    Standard,
    /// A device, a FIFO or an open file: written, not replaced.
    Open(PathBuf),
    /// A file that a new one takes the place of, or one that is not there yet.
    Replaced(PathBuf),
}

impl Output {
    /// The output that a name stands for; `-` is standard output.
    pub fn named(name: &Path) -> io::Result<Output> {
        if [Path::new("-"), Path::new("/dev/stdout")].contains(&name) {
            return Ok(Output::Standard);
        }
        if name.as_os_str().is_empty() {
            return Err(io::Error::new(ErrorKind::NotFound, "the name is empty"));
        }
        let opened = ["/dev/stderr", "/dev/fd", "/proc"];
        match fs::metadata(name) {
            Ok(found) if found.is_dir() => Err(ErrorKind::IsADirectory.into()),
            Ok(found) if !found.is_file() => Ok(Output::Open(name.into())),
            Ok(_) if opened.iter().any(|folder| name.starts_with(folder)) => {
                Ok(Output::Open(name.into()))
            }
            // A link stays, and what it leads to is replaced.
            Ok(_) => fs::canonicalize(name).map(Output::Replaced),
            Err(error) if error.kind() == ErrorKind::NotFound => new_file(name),
            Err(error) => Err(error),
        }
    }

    /// Whether the output is this regular file.
    pub fn is(&self, file: &Metadata) -> bool {
        let found = match self {
            Output::Standard => open_file(io::stdout()),
            Output::Open(path) | Output::Replaced(path) => fs::metadata(path),
        };
        found.is_ok_and(|found| {
            file.is_file() && (found.dev(), found.ino()) == (file.dev(), file.ino())
        })
    }

    /// Writes all these bytes. A file that is replaced is the old one until the
    /// new one is whole.
    pub fn write(&self, bytes: &[u8]) -> io::Result<()> {
        match self {
            Output::Standard => {
                let mut out = io::stdout().lock();
                out.write_all(bytes)?;
                out.flush()
            }
            Output::Open(path) => {
                let file = OpenOptions::new().write(true).truncate(true).open(path);
                file?.write_all(bytes)
            }
            Output::Replaced(path) => replace(path, bytes),
        }
    }
}

/// What is known of an open file.
pub fn open_file(file: impl AsFd) -> io::Result<Metadata> {
    File::from(file.as_fd().try_clone_to_owned()?).metadata()
}

fn new_file(name: &Path) -> io::Result<Output> {
    let error = |message| Err(io::Error::new(ErrorKind::NotFound, message));
    if name.as_os_str().as_bytes().ends_with(b"/") {
        return error("there is no such folder");
    }
    if fs::symlink_metadata(name).is_ok() {
        return error("it is a link that leads nowhere");
    }
    if !folder_of(name).is_dir() {
        return error("its folder does not exist");
    }
    Ok(Output::Replaced(name.into()))
}

fn folder_of(path: &Path) -> &Path {
    match path.parent() {
        Some(folder) if folder.as_os_str().is_empty() => Path::new("."),
        Some(folder) => folder,
        None => path,
    }
}

/// Writes a temporary file in the same folder and gives it the file's name.
fn replace(path: &Path, bytes: &[u8]) -> io::Result<()> {
    let old = match OpenOptions::new().write(true).open(path) {
        Ok(old) => Some(old.metadata()?.permissions()),
        Err(error) if error.kind() == ErrorKind::NotFound => None,
        Err(error) => return Err(error),
    };
    let (mut file, temporary) = temporary_file(folder_of(path))?;
    let fill = || {
        if let Some(permissions) = old {
            file.set_permissions(permissions)?;
        }
        file.write_all(bytes)?;
        file.sync_all()?;
        fs::rename(&temporary, path)
    };
    fill().inspect_err(|_| {
        // The first error is the one to be told.
        let _ = fs::remove_file(&temporary);
    })
}

fn temporary_file(folder: &Path) -> io::Result<(File, PathBuf)> {
    let process = std::process::id();
    let mut last = io::Error::from(ErrorKind::AlreadyExists);
    for attempt in 0..100 {
        let path = folder.join(format!(".study-{process}-{attempt}.tmp"));
        match OpenOptions::new().write(true).create_new(true).open(&path) {
            Ok(file) => return Ok((file, path)),
            Err(error) if error.kind() == ErrorKind::AlreadyExists => last = error,
            Err(error) => return Err(error),
        }
    }
    Err(last)
}
