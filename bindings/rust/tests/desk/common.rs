//! The stored vectors of crates/vectors/data.

use std::fs;
use std::path::PathBuf;

pub struct Vector {
    pub name: String,
    pub study: Vec<u8>,
    pub expected: String,
}

pub fn repository() -> PathBuf {
    PathBuf::from(env!("CARGO_MANIFEST_DIR")).join("../..")
}

/// All vectors; a study without its expected text is an error.
pub fn vectors() -> Vec<Vector> {
    let folder = repository().join("crates/vectors/data");
    let mut vectors = Vec::new();
    for entry in fs::read_dir(folder).unwrap() {
        let path = entry.unwrap().path();
        if path.extension().is_some_and(|end| end == "study") {
            vectors.push(Vector {
                name: path.file_stem().unwrap().to_string_lossy().into(),
                study: fs::read(&path).unwrap(),
                expected: fs::read_to_string(path.with_extension("expected")).unwrap(),
            });
        }
    }
    assert!(vectors.len() >= 64, "only {} vectors", vectors.len());
    vectors.sort_by(|a, b| a.name.cmp(&b.name));
    vectors
}
