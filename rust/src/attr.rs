//! Short-form attributes in an inode's attribute fork.

use crate::walk::{self, Seen, Step};
use crate::{raw, Refusal};

/// The flags of a namespace.
pub const USER: u32 = 0;
pub const TRUSTED: u32 = 2;
pub const SECURE: u32 = 4;

/// Where the walk starts: after the header.
pub const FIRST_PLACE: u64 = 4;

/// A stored attribute; name and value are parts of the slice that was lent.
#[derive(Clone, Copy, Debug, PartialEq, Eq)]
pub struct Attribute<'a> {
    pub flags: u32,
    pub name: &'a [u8],
    pub value: &'a [u8],
}

/// Tests the inode's short-form attributes.
pub fn test(inode: &[u8]) -> Result<(), Refusal> {
    // SAFETY: pointer and length are the slice's own; the call reads only.
    Refusal::check(unsafe { raw::pzw_attr_test(inode.as_ptr(), inode.len()) })
}

/// The value under a name, in place.
pub fn lookup<'a>(inode: &'a [u8], name: &[u8], flags: u32) -> Result<&'a [u8], Refusal> {
    // SAFETY: pointers and lengths are the slices' own; the call reads only.
    let place = unsafe {
        raw::pzw_attr_lookup(
            inode.as_ptr(),
            inode.len(),
            name.as_ptr(),
            name.len(),
            flags,
        )
    };
    Refusal::check(place.refusal)?;
    Ok(walk::part(inode, place.start, place.len))
}

/// Gives a name this value, in place of an older one.
pub fn set(inode: &mut [u8], name: &[u8], flags: u32, value: &[u8]) -> Result<(), Refusal> {
    // SAFETY: pointers and lengths are the slices' own; the exclusive borrow lets the call write the inode.
    Refusal::check(unsafe {
        raw::pzw_attr_set(
            inode.as_mut_ptr(),
            inode.len(),
            name.as_ptr(),
            name.len(),
            flags,
            value.as_ptr(),
            value.len(),
        )
    })
}

/// Takes an attribute out.
pub fn remove(inode: &mut [u8], name: &[u8], flags: u32) -> Result<(), Refusal> {
    // SAFETY: pointers and lengths are the slices' own; the exclusive borrow lets the call write the inode.
    Refusal::check(unsafe {
        raw::pzw_attr_remove(
            inode.as_mut_ptr(),
            inode.len(),
            name.as_ptr(),
            name.len(),
            flags,
        )
    })
}

/// One step of the walk. Places count from the fork's start; the first is [`FIRST_PLACE`].
pub fn step(inode: &[u8], place: u64) -> Result<Step<Attribute<'_>>, Refusal> {
    // SAFETY: pointer and length are the slice's own; the call reads only.
    let step = unsafe { raw::pzw_attr_step_at(inode.as_ptr(), inode.len(), place) };
    Refusal::check(step.refusal)?;
    let seen = match step.seen {
        0 => Seen::End,
        _ => Seen::Live(Attribute {
            flags: step.flags as u32,
            name: walk::part(inode, step.name_start, step.name_len),
            value: walk::part(inode, step.value_start, step.value_len),
        }),
    };
    let next = step.next;
    Ok(Step { next, seen })
}

/// The attributes in stored order, or the refusal.
pub fn entries(inode: &[u8]) -> impl Iterator<Item = Result<Attribute<'_>, Refusal>> + '_ {
    walk::live(FIRST_PLACE, move |place| step(inode, place))
}
