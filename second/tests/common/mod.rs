//! Builds studies record by record, and finds the vectors.
#![allow(dead_code)]

use std::fs;
use std::path::{Path, PathBuf};

/// A study being built. Every method appends one record.
#[derive(Clone, Default)]
pub struct Builder {
    pub bytes: Vec<u8>,
    pub records: u32,
    pub leaks: u64,
}

impl Builder {
    pub fn new(study: u32) -> Builder {
        Builder::default().record(1, &[&study.to_be_bytes()])
    }

    pub fn record(mut self, kind: u8, fields: &[&[u8]]) -> Builder {
        self.bytes.push(kind);
        for field in fields {
            self.bytes.extend_from_slice(field);
        }
        self.records += 1;
        self
    }

    pub fn target(self, number: u16, class: u8, setting: u8, volume: u32) -> Builder {
        self.record(
            2,
            &[
                &number.to_be_bytes(),
                &[class, setting],
                &volume.to_be_bytes(),
            ],
        )
    }

    pub fn leak(mut self, scenario: u32, frequency: u64) -> Builder {
        self.leaks = self.leaks.wrapping_add(frequency);
        self.record(3, &[&scenario.to_be_bytes(), &frequency.to_be_bytes()])
    }

    pub fn branching(self, chance: u32) -> Builder {
        self.record(4, &[&chance.to_be_bytes()])
    }

    /// A branching by an ignition curve at a release rate.
    pub fn on_curve(self, curve: u8, rate: u32) -> Builder {
        self.record(10, &[&[curve], &rate.to_be_bytes()])
    }

    pub fn outcome(self, kind: u8, effects: u16) -> Builder {
        self.record(5, &[&[kind], &effects.to_be_bytes()])
    }

    pub fn effect(self, target: u16, intensity: u32, duration: u16) -> Builder {
        self.record(
            6,
            &[
                &target.to_be_bytes(),
                &intensity.to_be_bytes(),
                &duration.to_be_bytes(),
            ],
        )
    }

    /// An effect whose last byte names its clock.
    pub fn timed(self, target: u16, intensity: u32, duration: u16, last: u8) -> Builder {
        self.record(
            8,
            &[
                &target.to_be_bytes(),
                &intensity.to_be_bytes(),
                &duration.to_be_bytes(),
                &[last],
            ],
        )
    }

    pub fn closing(self, count: u32, sum: u64) -> Builder {
        self.record(7, &[&count.to_be_bytes(), &sum.to_be_bytes()])
    }

    /// The closing with the right count and sum.
    pub fn close(self) -> Builder {
        let (count, sum) = (self.records + 1, self.leaks);
        self.closing(count, sum)
    }

    pub fn len(&self) -> u64 {
        self.bytes.len() as u64
    }
}

/// The specimen study of document 01.
pub fn specimen() -> Builder {
    Builder::new(7)
        .target(0, 0, 0, 0)
        .target(1, 1, 0, 500)
        .leak(1, 100_000_000)
        .branching(100_000)
        .outcome(2, 1)
        .effect(0, 12_500, 20)
        .branching(250_000)
        .outcome(5, 2)
        .effect(0, 20_000, 0)
        .effect(1, 70_000, 0)
        .outcome(0, 0)
        .close()
}

pub fn repository() -> PathBuf {
    Path::new(env!("CARGO_MANIFEST_DIR")).join("..")
}

/// A vector: its name, the study's bytes and the text expected.
pub struct Vector {
    pub name: String,
    pub study: Vec<u8>,
    pub expected: String,
}

pub fn vectors() -> Vec<Vector> {
    let folder = repository().join("crates/vectors/data");
    let mut vectors = Vec::new();
    for entry in fs::read_dir(&folder).expect("the folder of vectors") {
        let path = entry.expect("an entry").path();
        if path.extension().is_some_and(|end| end == "study") {
            vectors.push(Vector {
                name: path.file_stem().unwrap().to_string_lossy().into_owned(),
                study: fs::read(&path).expect("a study"),
                expected: fs::read_to_string(path.with_extension("expected"))
                    .expect("the text expected"),
            });
        }
    }
    vectors.sort_by(|a, b| a.name.cmp(&b.name));
    vectors
}
