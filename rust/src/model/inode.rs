//! The inode core.

use super::*;
use std::ops::Range;

/// Where the data fork lies in an inode of `len` bytes.
pub fn data_fork(options: &Options, core: &Core, len: usize) -> Range<usize> {
    match core.forkoff {
        0 => options.literal..len,
        _ => options.literal..attr_fork(options, core, len).start,
    }
}

/// Where the attribute fork lies when forkoff is not 0.
pub fn attr_fork(options: &Options, core: &Core, len: usize) -> Range<usize> {
    options.literal + 8 * core.forkoff as usize..len
}

/// Tests 1 to 3 as far as they hold for every inode.
pub fn read(options: &Options, inode: &[u8]) -> Result<Core, u32> {
    want([256, 512, 1024, 2048].contains(&inode.len()), SIZE)?;
    let small = |place: usize, width: usize| field(inode, place, width) as u32;
    let core = Core {
        refusal: 0,
        magic: small(0, 2),
        mode: small(2, 2),
        version: small(4, 1),
        format: small(5, 1),
        forkoff: small(82, 1),
        aformat: small(83, 1),
        size: field(inode, 56, 8),
    };
    want(core.magic == 0x494e, MAGIC)?;
    let versions = options.oldest_version..=options.newest_version;
    want(versions.contains(&core.version), KIND)?;
    let attr_start = attr_fork(options, &core, inode.len()).start;
    want(attr_start <= inode.len(), KIND)?;
    Ok(core)
}

pub fn test(options: &Options, inode: &[u8]) -> Core {
    read(options, inode).unwrap_or_else(|refusal| Core {
        refusal,
        ..Core::default()
    })
}
