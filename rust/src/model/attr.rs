//! Short-form attributes.

use super::*;
use std::collections::BTreeSet;
use std::ops::Range;

/// totsize (2), count, and a pad byte that is left alone.
const HEADER: usize = 4;

#[derive(Clone, Debug)]
pub struct Entry {
    /// Where the record starts, counted from the fork's start.
    pub place: usize,
    pub flags: u32,
    pub name: Vec<u8>,
    pub value: Vec<u8>,
}

impl Entry {
    fn is(&self, name: &[u8], flags: u32) -> bool {
        self.name == name && self.flags == flags
    }

    fn name_start(&self) -> usize {
        self.place + 3
    }

    fn value_start(&self) -> usize {
        self.name_start() + self.name.len()
    }

    fn end(&self) -> usize {
        self.value_start() + self.value.len()
    }
}

/// An attribute fork taken apart.
#[derive(Clone, Debug)]
pub struct Attrs {
    pub fork: Range<usize>,
    pub totsize: usize,
    pub entries: Vec<Entry>,
}

/// User, trusted or secure.
fn legal_flags(flags: u32) -> bool {
    [0, 2, 4].contains(&flags)
}

/// Tests 1 to 10.
pub fn read(options: &Options, inode: &[u8]) -> Result<Attrs, u32> {
    let core = inode::read(options, inode)?;
    want(core.aformat == 1 && core.forkoff != 0, KIND)?;

    let fork = inode::attr_fork(options, &core, inode.len());
    want(fork.len() >= HEADER, SPAN)?;
    let totsize = field(inode, fork.start, 2) as usize;
    want((HEADER..=fork.len()).contains(&totsize), SPAN)?;

    let entries = records(&inode[fork.start..fork.start + totsize])?;
    let attrs = Attrs {
        fork,
        totsize,
        entries,
    };
    let mut all = attrs.entries.iter();
    want(all.all(|entry| legal_attr_name(&entry.name)), NAME)?;
    let mut all = attrs.entries.iter();
    want(all.all(|entry| legal_flags(entry.flags)), NUMBER)?;
    let keys = attrs.entries.iter().map(|e| (&e.name, e.flags));
    let different: BTreeSet<(&Vec<u8>, u32)> = keys.collect();
    want(different.len() == attrs.entries.len(), TWICE)?;
    Ok(attrs)
}

/// The entries when exactly `count` of them use the whole list.
fn records(list: &[u8]) -> Result<Vec<Entry>, u32> {
    let mut entries = Vec::new();
    let mut place = HEADER;
    for _ in 0..list[2] {
        want(place + 3 <= list.len(), TILE)?;
        let name_start = place + 3;
        let name_end = name_start + usize::from(list[place]);
        let end = name_end + usize::from(list[place + 1]);
        want(end <= list.len(), TILE)?;
        entries.push(Entry {
            place,
            flags: u32::from(list[place + 2]),
            name: list[name_start..name_end].to_vec(),
            value: list[name_end..end].to_vec(),
        });
        place = end;
    }
    want(place == list.len(), TILE)?;
    Ok(entries)
}

pub fn test(options: &Options, inode: &[u8]) -> u32 {
    code(read(options, inode))
}

pub fn lookup(options: &Options, inode: &[u8], name: &[u8], flags: u32) -> Place {
    match seek(options, inode, name, flags) {
        Ok((attrs, index)) => {
            let entry = &attrs.entries[index];
            Place {
                refusal: 0,
                start: (attrs.fork.start + entry.value_start()) as u64,
                len: entry.value.len() as u64,
            }
        }
        Err(refusal) => Place {
            refusal,
            ..Place::default()
        },
    }
}

/// The list and which of its entries it is.
fn seek(options: &Options, inode: &[u8], name: &[u8], flags: u32) -> Result<(Attrs, usize), u32> {
    let attrs = asked(options, inode, name, flags)?;
    let index = attrs.entries.iter().position(|e| e.is(name, flags));
    Ok((attrs, index.ok_or(ABSENT)?))
}

/// Tests 1 to 11.
fn asked(options: &Options, inode: &[u8], name: &[u8], flags: u32) -> Result<Attrs, u32> {
    let attrs = read(options, inode)?;
    want(legal_attr_name(name) && legal_flags(flags), ASKED)?;
    Ok(attrs)
}

pub fn step(options: &Options, inode: &[u8], place: u64) -> AttrStep {
    walk(options, inode, place).unwrap_or_else(|refusal| AttrStep {
        refusal,
        ..AttrStep::default()
    })
}

fn walk(options: &Options, inode: &[u8], place: u64) -> Result<AttrStep, u32> {
    let attrs = read(options, inode)?;
    if place == attrs.totsize as u64 {
        return Ok(AttrStep {
            seen: END,
            next: place,
            ..AttrStep::default()
        });
    }
    let at = |entry: &&Entry| entry.place as u64 == place;
    let entry = attrs.entries.iter().find(at).ok_or(ASKED)?;
    let lent = |place: usize| (attrs.fork.start + place) as u64;
    Ok(AttrStep {
        refusal: 0,
        seen: LIVE,
        next: entry.end() as u64,
        flags: u64::from(entry.flags),
        name_start: lent(entry.name_start()),
        name_len: entry.name.len() as u64,
        value_start: lent(entry.value_start()),
        value_len: entry.value.len() as u64,
    })
}

pub fn set(options: &Options, inode: &[u8], name: &[u8], flags: u32, value: &[u8]) -> Change {
    let attrs = match asked(options, inode, name, flags) {
        Ok(attrs) => attrs,
        Err(refusal) => return Change::refused(refusal, inode),
    };
    let mut entries = attrs.entries.clone();
    entries.retain(|entry| !entry.is(name, flags));
    let note = if entries.len() < attrs.entries.len() {
        "replaced"
    } else {
        "appended"
    };
    entries.push(Entry {
        place: 0,
        flags,
        name: name.to_vec(),
        value: value.to_vec(),
    });
    // All judged with the old one gone.
    if value.len() > 255 {
        return Change::no_room(inode, "value over 255");
    }
    if entries.len() > 255 {
        return Change::no_room(inode, "count over 255");
    }
    let mut change = rewrite(inode, &attrs, &entries);
    if change.refusal == 0 {
        change.notes.push(note);
    }
    change
}

pub fn remove(options: &Options, inode: &[u8], name: &[u8], flags: u32) -> Change {
    match seek(options, inode, name, flags) {
        Ok((attrs, index)) => {
            let mut entries = attrs.entries.clone();
            entries.remove(index);
            rewrite(inode, &attrs, &entries)
        }
        Err(refusal) => Change::refused(refusal, inode),
    }
}

/// The inode with these entries in its attribute fork, if they fit.
fn rewrite(inode: &[u8], attrs: &Attrs, entries: &[Entry]) -> Change {
    let mut list = vec![0, 0, entries.len() as u8, inode[attrs.fork.start + 3]];
    for entry in entries {
        list.push(entry.name.len() as u8);
        list.push(entry.value.len() as u8);
        list.push(entry.flags as u8);
        list.extend(&entry.name);
        list.extend(&entry.value);
    }
    if list.len() > attrs.fork.len() {
        return Change::no_room(inode, "totsize over the fork");
    }
    let totsize = list.len() as u64;
    put(&mut list, 0, 2, totsize);
    list.resize(attrs.fork.len(), 0);
    let mut bytes = inode.to_vec();
    bytes[attrs.fork.clone()].copy_from_slice(&list);
    Change {
        refusal: 0,
        bytes,
        notes: Vec::new(),
    }
}
