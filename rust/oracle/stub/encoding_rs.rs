//! Stand-in for the crate encoding_rs: what descriptor/iso_639_language.rs calls.

pub mod mem {
    use std::borrow::Cow;

    pub fn decode_latin1(bytes: &[u8]) -> Cow<'_, str> {
        Cow::Owned(bytes.iter().map(|&b| b as char).collect())
    }
}
