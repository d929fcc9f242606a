//! The crate on the stored vectors and lists of calls.

mod calls;
mod common;
mod layout;
mod names;
mod vectors;
