//! The boundary: the C functions that the proved library exports, and their answers, in which the model answers too.

/// The fields handed out, all 0 beside a refusal.
#[repr(C)]
#[derive(Clone, Copy, Debug, Default, PartialEq, Eq)]
pub struct Core {
    pub refusal: u32,
    pub magic: u32,
    pub mode: u32,
    pub version: u32,
    pub format: u32,
    pub forkoff: u32,
    pub aformat: u32,
    pub size: u64,
}

/// A lookup's answer. `kind`, the file type, is 0 in V4; `compared` is 0 in a short form.
#[repr(C)]
#[derive(Clone, Copy, Debug, Default, PartialEq, Eq)]
pub struct Found {
    pub refusal: u32,
    pub kind: u32,
    pub number: u64,
    pub tag: u64,
    pub compared: u64,
}

/// Where an attribute's value lies in the lent bytes.
#[repr(C)]
#[derive(Clone, Copy, Debug, Default, PartialEq, Eq)]
pub struct Place {
    pub refusal: u32,
    pub start: u64,
    pub len: u64,
}

/// One step of a directory's walk; `seen` is 0 at the end, 1 at a gap, 2 at a live entry. `kind`, the file type, is 0 in V4.
#[repr(C)]
#[derive(Clone, Copy, Debug, Default, PartialEq, Eq)]
pub struct Step {
    pub refusal: u32,
    pub seen: u32,
    pub next: u64,
    pub number: u64,
    pub tag: u64,
    pub kind: u64,
    pub name_start: u64,
    pub name_len: u64,
}

/// One step of an attribute list's walk; `seen` is 0 at the end, 2 at a live entry.
#[repr(C)]
#[derive(Clone, Copy, Debug, Default, PartialEq, Eq)]
pub struct AttrStep {
    pub refusal: u32,
    pub seen: u32,
    pub next: u64,
    pub flags: u64,
    pub name_start: u64,
    pub name_len: u64,
    pub value_start: u64,
    pub value_len: u64,
}

extern "C" {
    pub fn pzw_hash(name: *const u8, name_len: usize) -> u32;
    pub fn pzw_inode_test(inode: *const u8, len: usize) -> Core;
    pub fn pzw_sfdir_test(inode: *const u8, len: usize, block_size: u64) -> u32;
    pub fn pzw_sfdir_lookup(
        inode: *const u8,
        len: usize,
        block_size: u64,
        name: *const u8,
        name_len: usize,
    ) -> Found;
    pub fn pzw_sfdir_insert(
        inode: *mut u8,
        len: usize,
        block_size: u64,
        name: *const u8,
        name_len: usize,
        number: u64,
    ) -> u32;
    pub fn pzw_sfdir_remove(
        inode: *mut u8,
        len: usize,
        block_size: u64,
        name: *const u8,
        name_len: usize,
    ) -> u32;
    pub fn pzw_sfdir_step(inode: *const u8, len: usize, block_size: u64, place: u64) -> Step;
    pub fn pzw_attr_test(inode: *const u8, len: usize) -> u32;
    pub fn pzw_attr_lookup(
        inode: *const u8,
        len: usize,
        name: *const u8,
        name_len: usize,
        flags: u32,
    ) -> Place;
    pub fn pzw_attr_set(
        inode: *mut u8,
        len: usize,
        name: *const u8,
        name_len: usize,
        flags: u32,
        value: *const u8,
        value_len: usize,
    ) -> u32;
    pub fn pzw_attr_remove(
        inode: *mut u8,
        len: usize,
        name: *const u8,
        name_len: usize,
        flags: u32,
    ) -> u32;
    pub fn pzw_attr_step_at(inode: *const u8, len: usize, place: u64) -> AttrStep;
    pub fn pzw_block_test(block: *const u8, len: usize) -> u32;
    pub fn pzw_block_lookup(
        block: *const u8,
        len: usize,
        name: *const u8,
        name_len: usize,
    ) -> Found;
    pub fn pzw_block_insert(
        block: *mut u8,
        len: usize,
        name: *const u8,
        name_len: usize,
        number: u64,
    ) -> u32;
    pub fn pzw_block_remove(block: *mut u8, len: usize, name: *const u8, name_len: usize) -> u32;
    pub fn pzw_block_step(block: *const u8, len: usize, place: u64) -> Step;
}
