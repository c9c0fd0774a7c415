//! The block directory: a power of two of bytes, 512 to 65,536.

use crate::walk::{self, Entry, Step};
use crate::{raw, Found, Refusal};
use std::fmt;

/// Where the walk starts: after the header.
pub const FIRST_PLACE: u64 = 16;

/// A lookup's refusal; an ABSENT one also says how many names were compared, any other 0.
#[derive(Clone, Copy, Debug, PartialEq, Eq)]
pub struct NotFound {
    pub refusal: Refusal,
    pub compared: u64,
}

impl fmt::Display for NotFound {
    fn fmt(&self, out: &mut fmt::Formatter<'_>) -> fmt::Result {
        self.refusal.fmt(out)?;
        match self.refusal {
            Refusal::Absent => write!(out, ", names compared: {}", self.compared),
            _ => Ok(()),
        }
    }
}

impl std::error::Error for NotFound {}

impl From<NotFound> for Refusal {
    fn from(missed: NotFound) -> Refusal {
        missed.refusal
    }
}

/// Tests a block.
pub fn test(block: &[u8]) -> Result<(), Refusal> {
    // SAFETY: pointer and length are the slice's own; the call reads only.
    Refusal::check(unsafe { raw::pzw_block_test(block.as_ptr(), block.len()) })
}

/// The inode number and the tag under a name.
pub fn lookup(block: &[u8], name: &[u8]) -> Result<Found, NotFound> {
    // SAFETY: pointers and lengths are the slices' own; the call reads only.
    let answer =
        unsafe { raw::pzw_block_lookup(block.as_ptr(), block.len(), name.as_ptr(), name.len()) };
    match Refusal::check(answer.refusal) {
        Ok(()) => Ok(Found::of(answer)),
        Err(refusal) => Err(NotFound {
            refusal,
            compared: answer.compared,
        }),
    }
}

/// Puts a new entry in. Its number may not be that of ".": no directory is inside itself.
pub fn insert(block: &mut [u8], name: &[u8], number: u64) -> Result<(), Refusal> {
    // SAFETY: pointers and lengths are the slices' own; the exclusive borrow lets the call write the block.
    Refusal::check(unsafe {
        raw::pzw_block_insert(
            block.as_mut_ptr(),
            block.len(),
            name.as_ptr(),
            name.len(),
            number,
        )
    })
}

/// Takes an entry out.
pub fn remove(block: &mut [u8], name: &[u8]) -> Result<(), Refusal> {
    // SAFETY: pointers and lengths are the slices' own; the exclusive borrow lets the call write the block.
    Refusal::check(unsafe {
        raw::pzw_block_remove(block.as_mut_ptr(), block.len(), name.as_ptr(), name.len())
    })
}

/// One step of the walk. A place is a record's tag or the data's end; the first is [`FIRST_PLACE`].
pub fn step(block: &[u8], place: u64) -> Result<Step<Entry<'_>>, Refusal> {
    // SAFETY: pointer and length are the slice's own; the call reads only.
    let step = unsafe { raw::pzw_block_step(block.as_ptr(), block.len(), place) };
    walk::dir_step(block, step)
}

/// The live entries by rising tag, "." and ".." first, or the refusal.
pub fn entries(block: &[u8]) -> impl Iterator<Item = Result<Entry<'_>, Refusal>> + '_ {
    walk::live(FIRST_PLACE, move |place| step(block, place))
}
