//! Parts of lent bytes, as place and length: also those that a type of the oracle keeps to itself.
//!
//! Some types of the oracle are structs of one field, a slice, and nothing public gives it back. Where it lies is what has to be
//! compared, so it is read out of the struct as it stands in memory. The compiler does not promise that such a struct looks like its
//! field: the modules that use this try it on slices that they know.

use mpeg2ts_reader::packet::{AdaptationField, AdaptationFieldExtension};
use mpeg2ts_reader::pes::{PesExtension, PesHeader, PesParsedContents};
use std::mem;

/// A struct of the oracle whose only field is a slice.
pub trait Keeps<'buf>: Sized {
    fn kept(&self) -> &'buf [u8] {
        const { assert!(mem::size_of::<Self>() == mem::size_of::<&[u8]>()) }
        // The struct is its only field, a slice that lives as long.
        unsafe { mem::transmute_copy(self) }
    }
}

impl<'buf> Keeps<'buf> for AdaptationField<'buf> {}
impl<'buf> Keeps<'buf> for AdaptationFieldExtension<'buf> {}
impl<'buf> Keeps<'buf> for PesHeader<'buf> {}
impl<'buf> Keeps<'buf> for PesParsedContents<'buf> {}
impl<'buf> Keeps<'buf> for PesExtension<'buf> {}

/// The place of a part in the whole, and its length.
pub fn place_and_length(whole: &[u8], part: &[u8]) -> [u64; 2] {
    let place = (part.as_ptr() as usize).wrapping_sub(whole.as_ptr() as usize);
    [place as u64, part.len() as u64]
}
