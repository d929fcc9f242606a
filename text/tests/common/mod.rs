//! The stored studies, and the words of what is shown.
#![allow(dead_code)]

use std::fs;
use std::path::{Path, PathBuf};
use study_text::{Limits, TextError};

pub fn repository() -> PathBuf {
    Path::new(env!("CARGO_MANIFEST_DIR")).join("..")
}

/// The bytes of the specimen study of document 01, as they are stored.
pub fn specimen() -> Vec<u8> {
    fs::read(repository().join("examples/specimen.study")).expect("the specimen")
}

/// A vector: its name, the study's bytes and the text expected.
pub struct Vector {
    pub name: String,
    pub study: Vec<u8>,
    pub expected: String,
}

impl Vector {
    /// The refusal expected: `N at P`; none where a report is expected.
    pub fn refusal(&self) -> Option<&str> {
        self.expected.trim_end().strip_prefix("refused ")
    }
}

pub fn vectors() -> Vec<Vector> {
    let folder = repository().join("crates/vectors/data");
    let mut vectors = Vec::new();
    for entry in fs::read_dir(&folder).expect("the folder of vectors") {
        let path = entry.expect("an entry").path();
        if path.extension().is_some_and(|end| end == "study") {
            vectors.push(Vector {
                name: path.file_stem().unwrap().to_string_lossy().into_owned(),
                study: fs::read(&path).expect("a study"),
                expected: fs::read_to_string(path.with_extension("expected"))
                    .expect("the text expected"),
            });
        }
    }
    assert!(vectors.len() >= 64, "vectors are missing");
    vectors.sort_by(|a, b| a.name.cmp(&b.name));
    vectors
}

/// The bytes of a text with numbers within the rules.
pub fn ruled(text: &str) -> Result<Vec<u8>, TextError> {
    study_text::to_bytes(text, Limits::Rules)
}

/// The bytes of a text with any numbers.
pub fn any(text: &str) -> Result<Vec<u8>, TextError> {
    study_text::to_bytes(text, Limits::Bytes)
}
