//! An independent model of the paper, for the tests and the bench.
//!
//! Ordinary Rust on ordinary data structures: a structure is read into lists, each rule is checked on the
//! lists in number order, and a change writes the lists back. Clear rather than fast; any bytes get an
//! answer. Refusals are the paper's numbers, 0 is done. The rules stand once, over [`Options`].

pub mod attr;
pub mod block;
pub mod inode;
mod options;
pub mod sfdir;

pub use crate::raw::{AttrStep, Core, Found, Place, Step};
pub use options::Options;
use std::borrow::Cow;
use std::collections::BTreeSet;

pub const SIZE: u32 = 1;
pub const MAGIC: u32 = 2;
pub const KIND: u32 = 3;
pub const SPAN: u32 = 4;
pub const TILE: u32 = 5;
pub const NAME: u32 = 6;
pub const NUMBER: u32 = 7;
pub const INDEX: u32 = 8;
pub const BEST: u32 = 9;
pub const TWICE: u32 = 10;
pub const ASKED: u32 = 11;
pub const FIXED: u32 = 12;
pub const ABSENT: u32 = 13;
pub const EXISTS: u32 = 14;
pub const NOROOM: u32 = 15;

/// The largest inode number that 4 bytes hold.
pub const NARROW_MAX: u64 = 0xffff_ffff;

/// What a step meets.
pub const END: u32 = 0;
pub const GAP: u32 = 1;
pub const LIVE: u32 = 2;

/// What a call that may write leaves behind: its answer, all bytes, and notes on how it came to that
/// (which case of a rule was used), so that the tests can count what they reached.
#[derive(Clone, Debug, PartialEq, Eq)]
pub struct Change {
    pub refusal: u32,
    pub bytes: Vec<u8>,
    pub notes: Vec<&'static str>,
}

impl Change {
    fn refused(refusal: u32, bytes: &[u8]) -> Change {
        Change {
            refusal,
            bytes: bytes.to_vec(),
            notes: Vec::new(),
        }
    }

    fn no_room(bytes: &[u8], why: &'static str) -> Change {
        Change {
            refusal: NOROOM,
            bytes: bytes.to_vec(),
            notes: vec![why],
        }
    }
}

/// A test of the paper: the refusal when what it wants does not hold.
fn want(holds: bool, refusal: u32) -> Result<(), u32> {
    if holds {
        Ok(())
    } else {
        Err(refusal)
    }
}

/// 0 or the refusal's number.
pub fn code<T>(verdict: Result<T, u32>) -> u32 {
    verdict.err().unwrap_or(0)
}

/// The big-endian number in `width` bytes at `place`, which the caller knows to be there.
pub fn field(bytes: &[u8], place: usize, width: usize) -> u64 {
    bytes[place..place + width]
        .iter()
        .fold(0, |number, &byte| number << 8 | u64::from(byte))
}

/// Writes a number big-endian into `width` bytes at `place`.
pub fn put(bytes: &mut [u8], place: usize, width: usize, number: u64) {
    bytes[place..place + width].copy_from_slice(&number.to_be_bytes()[8 - width..]);
}

/// The published xfs_da_hashname: for each byte, rotate left by 7, then exclusive-or the byte.
pub fn hash(name: &[u8]) -> u32 {
    name.iter()
        .fold(0u32, |hash, &byte| hash.rotate_left(7) ^ u32::from(byte))
}

/// A directory name as it is hashed and compared: under the case option A to Z are taken as a to z.
/// Attribute names never fold.
fn folded<'a>(options: &Options, name: &'a [u8]) -> Cow<'a, [u8]> {
    match options.folds {
        true => name.to_ascii_lowercase().into(),
        false => name.into(),
    }
}

/// The hash of a directory name.
pub fn name_hash(options: &Options, name: &[u8]) -> u32 {
    hash(&folded(options, name))
}

/// Two directory names count as one.
pub fn same_name(options: &Options, one: &[u8], other: &[u8]) -> bool {
    folded(options, one) == folded(options, other)
}

/// No two of these directory names count as one.
fn all_differ<'a>(options: &Options, mut names: impl Iterator<Item = &'a [u8]>) -> bool {
    let mut seen = BTreeSet::new();
    names.all(|name| seen.insert(folded(options, name)))
}

/// What an entry with a name of `name_len` bytes takes in a block: E.
pub fn entry_size(options: &Options, name_len: usize) -> usize {
    (11 + options.ftype + name_len).div_ceil(8) * 8
}

/// A directory name that may be stored or asked for; under the case option it holds no byte of 128 or above.
pub fn legal_name(options: &Options, name: &[u8]) -> bool {
    let foldable = !options.folds || name.is_ascii();
    legal_attr_name(name) && !name.contains(&b'/') && foldable
}

pub fn legal_attr_name(name: &[u8]) -> bool {
    (1..=255).contains(&name.len()) && !name.contains(&0)
}

pub fn legal_number(number: u64) -> bool {
    (1..1 << 56).contains(&number)
}

pub fn legal_block_size(options: &Options, len: u64) -> bool {
    len.is_power_of_two() && (512..=options.largest_block).contains(&len)
}

/// The two names that every directory has.
pub fn is_dot(name: &[u8]) -> bool {
    name == b"." || name == b".."
}
