//! XFS metadata on the salvage bench: V4 inodes, short-form directories, block directories and short-form
//! attributes, tested, listed, looked up and mended in the caller's own bytes.
//!
//! Safe wrappers over the proved library's C functions. Every call takes the structure as a slice, tests it
//! whole first, and answers with a value or with the number of the first test that failed; a refused call
//! leaves every byte as it was.
//!
//! ```no_run
//! # fn main() -> Result<(), Box<dyn std::error::Error>> {
//! let mut block = std::fs::read("dir.block")?;
//! pelunziwa::block::insert(&mut block, b"found again", 131)?;
//! for entry in pelunziwa::block::entries(&block) {
//!     let entry = entry?;
//!     println!("{} {}", entry.tag, entry.number);
//! }
//! # Ok(())
//! # }
//! ```

pub mod attr;
pub mod block;
pub mod inode;
pub mod sfdir;

mod found;
mod raw;
mod refusal;
mod walk;

#[doc(hidden)]
pub mod alike;
#[doc(hidden)]
pub mod model;
#[doc(hidden)]
pub mod yardstick;

/// The boundary as it is, for the tests that hold every field of every answer to the model.
#[doc(hidden)]
pub mod boundary {
    pub use crate::raw::*;
}

pub use found::Found;
pub use refusal::Refusal;
pub use walk::{Entry, Seen, Step};

/// The published xfs_da_hashname of any bytes.
#[inline]
pub fn hash(name: &[u8]) -> u32 {
    // SAFETY: pointer and length are the slice's own; the call reads only.
    unsafe { raw::pzw_hash(name.as_ptr(), name.len()) }
}
