//! What the rules are stated over: an edition's sizes, the largest block and the case option.

/// Everything that differs from disk to disk; no rule names these numbers itself.
#[derive(Clone, Copy, Debug, PartialEq, Eq)]
pub struct Options {
    /// A block's magic.
    pub magic: u32,
    /// Where a block's best-gap table starts.
    pub best_gaps: usize,
    /// The bytes of a block's header; the data starts there, with ".".
    pub header: usize,
    /// The first tag after "..".
    pub first_tag: usize,
    /// The bytes of an entry's file type.
    pub ftype: usize,
    /// Where an inode's literal area starts.
    pub literal: usize,
    pub oldest_version: u32,
    pub newest_version: u32,
    /// The most bytes of a directory block, also of one that a short form is told of.
    pub largest_block: u64,
    /// The ASCII case-blind option: directory names that differ in case alone are the same.
    pub folds: bool,
}

impl Options {
    pub const V4: Options = Options {
        magic: 0x5844_3242,
        best_gaps: 4,
        header: 16,
        first_tag: 48,
        ftype: 0,
        literal: 100,
        oldest_version: 1,
        newest_version: 2,
        largest_block: 65_536,
        folds: false,
    };
}
