//! What a lookup in either directory form finds.

use crate::raw;

/// A name's inode number, its entry's tag, and how many names of its hash were compared to find it: 0 in a short form.
///
/// In a block the tag is the entry's offset. In a short form it is the stored one, and 0 for "..", which is not stored.
#[derive(Clone, Copy, Debug, PartialEq, Eq)]
pub struct Found {
    pub number: u64,
    pub tag: u64,
    pub compared: u64,
}

impl Found {
    /// What an answer that is no refusal tells.
    pub(crate) fn of(answer: raw::Found) -> Found {
        let raw::Found {
            number,
            tag,
            compared,
            ..
        } = answer;
        Found {
            number,
            tag,
            compared,
        }
    }
}
