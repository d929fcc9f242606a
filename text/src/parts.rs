//! The records in a study's bytes, by their kind bytes and lengths alone.

use crate::form::{Form, form_of};

/// A whole record, or, without a form, all that is left from a place on where
/// no whole record of a known kind stands.
pub(crate) struct Part<'a> {
    #[cfg_attr(
        not(feature = "desk"),
        expect(dead_code, reason = "only show needs it")
    )]
    pub(crate) place: usize,
    pub(crate) form: Option<&'static Form>,
    pub(crate) bytes: &'a [u8],
}

/// The parts of some bytes, in order. Only the last one can be without a form.
pub(crate) fn parts(bytes: &[u8]) -> impl Iterator<Item = Part<'_>> {
    let mut place = 0;
    std::iter::from_fn(move || {
        let rest = &bytes[place..];
        let form = form_of(*rest.first()?).filter(|form| form.length() <= rest.len());
        let part = Part {
            place,
            form,
            bytes: &rest[..form.map_or(rest.len(), Form::length)],
        };
        place += part.bytes.len();
        Some(part)
    })
}

/// So many bytes, in words.
#[cfg(feature = "desk")]
pub(crate) fn bytes_in_words(count: usize) -> String {
    match count {
        1 => "1 byte".into(),
        _ => format!("{count} bytes"),
    }
}
