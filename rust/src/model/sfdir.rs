//! The short-form directory.

use super::*;
use std::ops::Range;

#[derive(Clone, Debug)]
pub struct Entry {
    /// Where the record starts, counted from the fork's start.
    pub place: usize,
    pub tag: usize,
    pub name: Vec<u8>,
    pub number: u64,
}

impl Entry {
    fn tag_end(&self, options: &Options) -> usize {
        self.tag + entry_size(options, self.name.len())
    }
}

/// A short-form directory taken apart.
#[derive(Clone, Debug)]
pub struct Dir {
    pub fork: Range<usize>,
    pub size: usize,
    pub i8count: u64,
    pub parent: u64,
    pub entries: Vec<Entry>,
}

fn is_wide(number: u64) -> bool {
    number > NARROW_MAX
}

/// The header's bytes: count, i8count and the parent.
fn header_size(number_width: usize) -> usize {
    2 + number_width
}

fn number_width(i8count: u64) -> usize {
    if i8count == 0 {
        4
    } else {
        8
    }
}

/// Tests 1 to 10.
pub fn read(options: &Options, inode: &[u8], block_size: u64) -> Result<Dir, u32> {
    let dir = tile(options, inode, block_size)?;
    let names: Vec<&[u8]> = dir.entries.iter().map(|entry| &entry.name[..]).collect();
    let good = |name: &&[u8]| legal_name(options, name) && !is_dot(name);
    want(names.iter().all(good), NAME)?;
    want(legal_number(dir.parent), NUMBER)?;
    want(dir.entries.iter().all(|e| legal_number(e.number)), NUMBER)?;
    want(dir.i8count == wide_numbers(dir.parent, &dir.entries), INDEX)?;
    want(all_differ(options, names.into_iter()), TWICE)?;
    Ok(dir)
}

/// What i8count counts: wide entries, plus 1 for a wide parent.
fn wide_numbers(parent: u64, entries: &[Entry]) -> u64 {
    let wide = entries.iter().filter(|entry| is_wide(entry.number));
    wide.count() as u64 + u64::from(is_wide(parent))
}

/// Tests 1 to 5.
fn tile(options: &Options, inode: &[u8], block_size: u64) -> Result<Dir, u32> {
    want([256, 512, 1024, 2048].contains(&inode.len()), SIZE)?;
    want(legal_block_size(options, block_size), SIZE)?;
    let core = inode::read(options, inode)?;
    want(core.mode / 4096 == 4 && core.format == 1, KIND)?;

    let fork = inode::data_fork(options, &core, inode.len());
    let i8count = field(inode, fork.start + 1, 1);
    let width = number_width(i8count);
    let header = header_size(width);
    want(core.size >= header as u64, SPAN)?;
    want(core.size <= fork.len() as u64, SPAN)?;

    let size = core.size as usize;
    let list = &inode[fork.start..fork.start + size];
    let dir = Dir {
        fork,
        size,
        i8count,
        parent: field(list, 2, width),
        entries: records(list, width)?,
    };
    want(tags_in_order(options, &dir.entries), TILE)?;
    want(within_limit(options, &dir.entries, block_size), TILE)?;
    Ok(dir)
}

/// The entries when exactly `count` of them use the whole list.
fn records(list: &[u8], width: usize) -> Result<Vec<Entry>, u32> {
    let mut entries = Vec::new();
    let mut place = header_size(width);
    for _ in 0..list[0] {
        want(place + 3 <= list.len(), TILE)?;
        let name_end = place + 3 + field(list, place, 1) as usize;
        want(name_end + width <= list.len(), TILE)?;
        entries.push(Entry {
            place,
            tag: field(list, place + 1, 2) as usize,
            name: list[place + 3..name_end].to_vec(),
            number: field(list, name_end, width),
        });
        place = name_end + width;
    }
    want(place == list.len(), TILE)?;
    Ok(entries)
}

fn tags_in_order(options: &Options, entries: &[Entry]) -> bool {
    let mut lowest = options.first_tag;
    for entry in entries {
        if entry.tag % 8 != 0 || entry.tag < lowest {
            return false;
        }
        lowest = entry.tag_end(options);
    }
    true
}

/// The end of the last entry's room in a block.
fn tags_end(options: &Options, entries: &[Entry]) -> usize {
    let last = entries.last();
    last.map_or(options.first_tag, |entry| entry.tag_end(options))
}

/// The directory would still fit a block, with slots for "." and ".." and the tail.
fn within_limit(options: &Options, entries: &[Entry], block_size: u64) -> bool {
    (tags_end(options, entries) + 8 * (entries.len() + 2) + 8) as u64 <= block_size
}

pub fn test(options: &Options, inode: &[u8], block_size: u64) -> u32 {
    code(read(options, inode, block_size))
}

pub fn lookup(options: &Options, inode: &[u8], block_size: u64, name: &[u8]) -> Found {
    match seek(options, inode, block_size, name) {
        Ok((number, tag)) => Found {
            number,
            tag,
            ..Found::default()
        },
        Err(refusal) => Found {
            refusal,
            ..Found::default()
        },
    }
}

/// The number and the tag under a name; the parent is not an entry and has no tag.
fn seek(options: &Options, inode: &[u8], block_size: u64, name: &[u8]) -> Result<(u64, u64), u32> {
    let dir = read(options, inode, block_size)?;
    want(legal_name(options, name), ASKED)?;
    want(name != b".", FIXED)?;
    if name == b".." {
        return Ok((dir.parent, 0));
    }
    let named = |entry: &&Entry| same_name(options, &entry.name, name);
    let entry = dir.entries.iter().find(named);
    let told = |entry: &Entry| (entry.number, entry.tag as u64);
    entry.map(told).ok_or(ABSENT)
}

pub fn step(options: &Options, inode: &[u8], block_size: u64, place: u64) -> Step {
    walk(options, inode, block_size, place).unwrap_or_else(|refusal| Step {
        refusal,
        ..Step::default()
    })
}

fn walk(options: &Options, inode: &[u8], block_size: u64, place: u64) -> Result<Step, u32> {
    let dir = read(options, inode, block_size)?;
    if place == dir.size as u64 {
        return Ok(Step {
            seen: END,
            next: place,
            ..Step::default()
        });
    }
    let at = |entry: &&Entry| entry.place as u64 == place;
    let entry = dir.entries.iter().find(at).ok_or(ASKED)?;
    let name_start = entry.place + 3;
    Ok(Step {
        seen: LIVE,
        next: (name_start + entry.name.len() + number_width(dir.i8count)) as u64,
        number: entry.number,
        tag: entry.tag as u64,
        name_start: (dir.fork.start + name_start) as u64,
        name_len: entry.name.len() as u64,
        ..Step::default()
    })
}

pub fn insert(
    options: &Options,
    inode: &[u8],
    block_size: u64,
    name: &[u8],
    number: u64,
) -> Change {
    let dir = match insertable(options, inode, block_size, name, number) {
        Ok(dir) => dir,
        Err(refusal) => return Change::refused(refusal, inode),
    };
    let need = entry_size(options, name.len());
    let Some((index, tag, note)) = free_tag(options, &dir.entries, need, block_size) else {
        return Change::no_room(inode, "no tag");
    };
    let mut entries = dir.entries.clone();
    let entry = Entry {
        place: 0,
        tag,
        name: name.to_vec(),
        number,
    };
    entries.insert(index, entry);
    let mut change = rewrite(inode, &dir, &entries);
    if change.refusal == 0 {
        change.notes.push(note);
    }
    change
}

/// Every test before that of room.
fn insertable(
    options: &Options,
    inode: &[u8],
    block_size: u64,
    name: &[u8],
    number: u64,
) -> Result<Dir, u32> {
    let dir = read(options, inode, block_size)?;
    want(legal_name(options, name) && legal_number(number), ASKED)?;
    want(!is_dot(name), FIXED)?;
    let named = |entry: &Entry| same_name(options, &entry.name, name);
    want(!dir.entries.iter().any(named), EXISTS)?;
    Ok(dir)
}

/// Where in the list a new entry that takes `need` goes, its tag, and whether that follows or fills a hole.
fn free_tag(
    options: &Options,
    entries: &[Entry],
    need: usize,
    block_size: u64,
) -> Option<(usize, usize, &'static str)> {
    let end = tags_end(options, entries);
    // Slots for ".", "..", the entries and the new one, and the tail.
    let index = 8 * (entries.len() + 3) + 8;
    if (end + need + index) as u64 <= block_size {
        return Some((entries.len(), end, "tag follows"));
    }
    if (end + index) as u64 > block_size {
        return None;
    }
    let mut low = options.first_tag;
    for (at, entry) in entries.iter().enumerate() {
        if entry.tag - low >= need {
            return Some((at, low, "tag hole"));
        }
        low = entry.tag_end(options);
    }
    None
}

pub fn remove(options: &Options, inode: &[u8], block_size: u64, name: &[u8]) -> Change {
    match removable(options, inode, block_size, name) {
        Ok((dir, entries)) => rewrite(inode, &dir, &entries),
        Err(refusal) => Change::refused(refusal, inode),
    }
}

/// The directory and the entries that are left.
fn removable(
    options: &Options,
    inode: &[u8],
    block_size: u64,
    name: &[u8],
) -> Result<(Dir, Vec<Entry>), u32> {
    let dir = read(options, inode, block_size)?;
    want(legal_name(options, name), ASKED)?;
    want(!is_dot(name), FIXED)?;
    let mut left = dir.entries.clone();
    left.retain(|entry| !same_name(options, &entry.name, name));
    want(left.len() < dir.entries.len(), ABSENT)?;
    Ok((dir, left))
}

/// The inode with these entries in its data fork, if they fit.
fn rewrite(inode: &[u8], dir: &Dir, entries: &[Entry]) -> Change {
    let wide = wide_numbers(dir.parent, entries);
    let width = number_width(wide);
    let mut list = vec![entries.len() as u8, wide as u8];
    list.extend(number_bytes(dir.parent, width));
    for entry in entries {
        list.push(entry.name.len() as u8);
        list.extend((entry.tag as u16).to_be_bytes());
        list.extend(&entry.name);
        list.extend(number_bytes(entry.number, width));
    }
    if list.len() > dir.fork.len() {
        return Change::no_room(inode, "over the fork");
    }
    let mut bytes = inode.to_vec();
    put(&mut bytes, 56, 8, list.len() as u64);
    list.resize(dir.fork.len(), 0);
    bytes[dir.fork.clone()].copy_from_slice(&list);
    let mut notes = match (number_width(dir.i8count), width) {
        (4, 8) => vec!["narrow to wide"],
        (8, 4) => vec!["wide to narrow"],
        _ => vec!["width kept"],
    };
    if wide == 1 && is_wide(dir.parent) {
        notes.push("wide for the parent alone");
    }
    if wide == 1 && dir.i8count == 2 && is_wide(dir.parent) {
        notes.push("last wide entry out, still wide");
    }
    if width == 8 && entries.is_empty() {
        notes.push("empty and wide");
    }
    Change {
        refusal: 0,
        bytes,
        notes,
    }
}

fn number_bytes(number: u64, width: usize) -> Vec<u8> {
    number.to_be_bytes()[8 - width..].to_vec()
}
