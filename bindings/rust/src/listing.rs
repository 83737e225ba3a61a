use crate::{ffi, refusal::written, Refusal};

/// A listing of more bytes is refused.
pub const LONGEST_LISTING: usize = 32_768;

/// A listing of more lines is refused.
pub const MOST_LINES: usize = 512;

/// The numbers of a listing's lines, from 1, in order: by their first values, a lone value before a frexp pair, then by
/// the second values, refused lines last, ties by number. A listing is answer lines, each ended by a newline; the last
/// may go without.
pub fn sort_listing(listing: &[u8]) -> Result<Vec<u16>, Refusal> {
    let mut index = [0; MOST_LINES];
    sort_listing_into(listing, &mut index).map(<[u16]>::to_vec)
}

/// The same into lent memory: gives back the part of it that the index is. What stands past it, and all of it where the
/// listing is refused, stays as it was. [`MOST_LINES`] entries are always enough.
pub fn sort_listing_into<'a>(listing: &[u8], index: &'a mut [u16]) -> Result<&'a [u16], Refusal> {
    // SAFETY: each pointer and length are those of a slice, and a shared and an exclusive one do not overlap.
    let answer = unsafe { ffi::chanrelout_sort(listing.as_ptr(), listing.len(), index.as_mut_ptr(), index.len()) };
    Ok(&index[..written(answer)?])
}
