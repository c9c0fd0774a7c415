//! The inode core, versions 1 and 2.

use crate::{raw, Refusal};

/// The fields handed out.
#[derive(Clone, Copy, Debug, PartialEq, Eq)]
pub struct Core {
    pub magic: u16,
    pub mode: u16,
    pub version: u8,
    pub format: u8,
    pub size: u64,
    pub forkoff: u8,
    pub aformat: u8,
}

/// Tests an inode of 256, 512, 1,024 or 2,048 bytes and hands out its fields.
pub fn test(inode: &[u8]) -> Result<Core, Refusal> {
    // SAFETY: pointer and length are the slice's own; the call reads only.
    let core = unsafe { raw::pzw_inode_test(inode.as_ptr(), inode.len()) };
    Refusal::check(core.refusal)?;
    Ok(Core {
        magic: core.magic as u16,
        mode: core.mode as u16,
        version: core.version as u8,
        format: core.format as u8,
        size: core.size,
        forkoff: core.forkoff as u8,
        aformat: core.aformat as u8,
    })
}
