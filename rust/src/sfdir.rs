//! The short-form directory in an inode's data fork. Every call is told the directory block size, which
//! limits the tags.

use crate::walk::{self, Entry, Step};
use crate::{raw, Found, Refusal};

/// Tests the inode as a short-form directory.
pub fn test(inode: &[u8], block_size: u64) -> Result<(), Refusal> {
    // SAFETY: pointer and length are the slice's own; the call reads only.
    Refusal::check(unsafe { raw::pzw_sfdir_test(inode.as_ptr(), inode.len(), block_size) })
}

/// The inode number and the tag under a name; ".." gives the parent, and tag 0.
pub fn lookup(inode: &[u8], block_size: u64, name: &[u8]) -> Result<Found, Refusal> {
    // SAFETY: pointers and lengths are the slices' own; the call reads only.
    let answer = unsafe {
        raw::pzw_sfdir_lookup(
            inode.as_ptr(),
            inode.len(),
            block_size,
            name.as_ptr(),
            name.len(),
        )
    };
    Refusal::check(answer.refusal)?;
    Ok(Found::of(answer))
}

/// Puts a new entry in.
pub fn insert(inode: &mut [u8], block_size: u64, name: &[u8], number: u64) -> Result<(), Refusal> {
    // SAFETY: pointers and lengths are the slices' own; the exclusive borrow lets the call write the inode.
    Refusal::check(unsafe {
        raw::pzw_sfdir_insert(
            inode.as_mut_ptr(),
            inode.len(),
            block_size,
            name.as_ptr(),
            name.len(),
            number,
        )
    })
}

/// Takes an entry out.
pub fn remove(inode: &mut [u8], block_size: u64, name: &[u8]) -> Result<(), Refusal> {
    // SAFETY: pointers and lengths are the slices' own; the exclusive borrow lets the call write the inode.
    Refusal::check(unsafe {
        raw::pzw_sfdir_remove(
            inode.as_mut_ptr(),
            inode.len(),
            block_size,
            name.as_ptr(),
            name.len(),
        )
    })
}

/// One step of the walk. Places count from the fork's start; the first is [`first_place`].
pub fn step(inode: &[u8], block_size: u64, place: u64) -> Result<Step<Entry<'_>>, Refusal> {
    // SAFETY: pointer and length are the slice's own; the call reads only.
    let step = unsafe { raw::pzw_sfdir_step(inode.as_ptr(), inode.len(), block_size, place) };
    walk::dir_step(inode, step)
}

/// The place after the header, which is longer when i8count is not 0.
pub fn first_place(inode: &[u8]) -> u64 {
    match inode.get(101) {
        None | Some(0) => 6,
        Some(_) => 10,
    }
}

/// The entries in stored order, or the refusal. "." and ".." are not stored.
pub fn entries(
    inode: &[u8],
    block_size: u64,
) -> impl Iterator<Item = Result<Entry<'_>, Refusal>> + '_ {
    walk::live(first_place(inode), move |place| {
        step(inode, block_size, place)
    })
}
