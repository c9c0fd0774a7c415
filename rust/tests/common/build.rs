//! Generators of right and nearly right structures of any shape. They know the format only, not the model.

use super::{names, Rng};
use std::collections::BTreeSet;

/// What is wrong with an otherwise right structure.
#[derive(Clone, Copy, Debug, PartialEq, Eq)]
pub enum Fault {
    Name,
    Number,
    OwnNumber,
    Twice,
    Dots,
    Touching,
    Uneven,
    Best,
}

/// None half of the time, else one, sometimes two: the first test that fails must be the answer.
pub fn faults(rng: &mut Rng) -> Vec<Fault> {
    let all = [
        Fault::Name,
        Fault::Number,
        Fault::OwnNumber,
        Fault::Twice,
        Fault::Dots,
        Fault::Touching,
        Fault::Uneven,
        Fault::Best,
    ];
    let count = rng.pick(&[0, 0, 0, 1, 1, 2]);
    (0..count).map(|_| rng.pick(&all)).collect()
}

pub const BLOCK_SIZES: [usize; 8] = [512, 1024, 2048, 4096, 8192, 16_384, 32_768, 65_536];
const LARGEST: usize = BLOCK_SIZES[BLOCK_SIZES.len() - 1];
pub const INODE_SIZES: [usize; 4] = [256, 512, 1024, 2048];

/// Random bytes, mostly of an inode's length, and mostly under the core of a right inode: whether they are.
pub fn junk_inode(rng: &mut Rng, right: impl FnOnce(&mut Rng) -> Vec<u8>) -> (Vec<u8>, bool) {
    let len = match rng.below(5) {
        0 => rng.below(300),
        _ => rng.pick(&INODE_SIZES),
    };
    let mut bytes = rng.bytes(len);
    let cored = len >= 256 && !rng.one_in(5);
    if cored {
        bytes[..100].copy_from_slice(&right(rng)[..100]);
    }
    (bytes, cored)
}

/// A block's length; the smaller the likelier.
pub fn block_len(rng: &mut Rng) -> usize {
    let top = rng.between(1, BLOCK_SIZES.len());
    let top = rng.between(1, top);
    BLOCK_SIZES[rng.below(top)]
}

fn room(name_len: usize) -> usize {
    (name_len + 18) / 8 * 8
}

fn hash(name: &[u8]) -> u32 {
    let mut hash = 0u32;
    for &byte in name {
        hash = hash.rotate_left(7) ^ u32::from(byte);
    }
    hash
}

fn put(bytes: &mut [u8], place: usize, field: &[u8]) {
    bytes[place..place + field.len()].copy_from_slice(field);
}

fn put16(bytes: &mut [u8], place: usize, number: usize) {
    put(bytes, place, &(number as u16).to_be_bytes());
}

enum Part {
    Live(Vec<u8>, u64),
    Gap(usize),
}

impl Part {
    fn len(&self) -> usize {
        match self {
            Part::Live(name, _) => room(name.len()),
            Part::Gap(len) => *len,
        }
    }
}

/// A name that is not there yet; sometimes one with the hash of one that is.
fn new_name(rng: &mut Rng, there: &BTreeSet<Vec<u8>>) -> Vec<u8> {
    loop {
        let some = there.iter().nth(rng.below(there.len().max(1)));
        let name = match (some, rng.below(8)) {
            (Some(some), 0) => names::twin(rng, some).unwrap_or_else(|| names::legal(rng)),
            (Some(some), 1) => names::with_hash(rng, hash(some)),
            _ => names::legal(rng),
        };
        if !there.contains(&name) {
            return name;
        }
    }
}

/// An inode number that may not be stored, but does not look like a gap.
fn bad_number(rng: &mut Rng) -> u64 {
    rng.pick(&[0, 1 << 56, 1 << 60, 0xfffe << 48, (1 << 56) + 1])
}

/// A name that may not be stored.
fn bad_name(rng: &mut Rng) -> Vec<u8> {
    loop {
        let name = names::odd(rng);
        if name.len() < 256 && name != b"..." {
            return name;
        }
    }
}

/// A block directory with any mix of entries, gaps and stale slots.
pub fn block(rng: &mut Rng, len: usize, faults: &[Fault]) -> Vec<u8> {
    let wide = rng.one_in(3);
    let own = names::legal_number(rng, wide);
    // A root is its own parent.
    let parent = match rng.one_in(4) {
        true => own,
        false => names::legal_number(rng, false),
    };
    let mut parts = vec![
        Part::Live(b".".to_vec(), own),
        Part::Live(b"..".to_vec(), parent),
    ];
    let mut left = len - 24 - 2 * 24;
    fill(rng, &mut parts, &mut left, own);
    let stale = leave(rng, &mut parts, left);
    for fault in faults {
        spoil(rng, &mut parts, *fault);
    }
    let mut bytes = write_block(rng, len, &parts, stale);
    if faults.contains(&Fault::Best) {
        any_best(rng, &mut bytes, &parts);
    }
    bytes
}

/// Entries and gaps, never two gaps in a row, until a random stop or the room's end.
fn fill(rng: &mut Rng, parts: &mut Vec<Part>, left: &mut usize, own: u64) {
    let stop = rng.pick(&[4, 20, 1000, 100_000]);
    let gaps = rng.pick(&[2, 4, 30]);
    let mut there: BTreeSet<Vec<u8>> = [b".".to_vec(), b"..".to_vec()].into();
    while !rng.one_in(stop) && *left > 0 {
        let after_gap = matches!(parts.last(), Some(Part::Gap(_)));
        if !after_gap && rng.one_in(gaps) {
            let len = 8 * rng.between(1, (*left / 8).min(20));
            *left -= len;
            parts.push(Part::Gap(len));
            continue;
        }
        let name = new_name(rng, &there);
        if room(name.len()) + 8 > *left {
            if *left < 24 || rng.one_in(4) {
                break;
            }
            continue;
        }
        *left -= room(name.len()) + 8;
        let wide = rng.one_in(4);
        let number = names::entry_number(rng, wide, own);
        parts.push(Part::Live(name.clone(), number));
        there.insert(name);
    }
}

/// Shares what is left between stale slots and the gap at the slots; says how many slots.
fn leave(rng: &mut Rng, parts: &mut Vec<Part>, left: usize) -> usize {
    let stale = match rng.below(4) {
        0 => left / 8,
        1 => rng.between(0, left / 8),
        2 => rng.between(0, (left / 8).min(6)),
        _ => 0,
    };
    let gap = left - 8 * stale;
    match parts.last_mut() {
        Some(Part::Gap(len)) => *len += gap,
        _ if gap > 0 => parts.push(Part::Gap(gap)),
        _ => {}
    }
    stale
}

/// Puts a fault in that keeps every length, where there is a place for it.
fn spoil(rng: &mut Rng, parts: &mut Vec<Part>, fault: Fault) {
    let at = rng.below(parts.len());
    let of_room = |wanted: &[u8], part: &Part| room(wanted.len()) == part.len();
    match fault {
        Fault::Name => {
            let name = bad_name(rng);
            let fitting = parts[2..].iter_mut().find(|part| of_room(&name, part));
            if let Some(Part::Live(old, _)) = fitting {
                *old = name;
            }
        }
        Fault::Number => {
            if let Part::Live(_, number) = &mut parts[at] {
                *number = bad_number(rng);
            }
        }
        Fault::OwnNumber => inside_itself(rng, parts),
        Fault::Twice => repeat(&mut parts[2..], at),
        Fault::Dots => match rng.below(3) {
            0 => parts.swap(0, 1),
            1 => parts[0] = Part::Live(b"x".to_vec(), 1),
            _ => parts[1] = Part::Live(b"y".to_vec(), 1),
        },
        Fault::Touching => {
            let long = |part: &Part| matches!(part, Part::Gap(len) if *len > 8);
            if let Some(gap) = parts.iter().position(long) {
                let half = 8 * rng.between(1, parts[gap].len() / 8 - 1);
                let rest = parts[gap].len() - half;
                parts.splice(gap..=gap, [Part::Gap(half), Part::Gap(rest)]);
            }
        }
        Fault::Uneven => uneven(rng, parts),
        // The table is written last.
        Fault::Best => {}
    }
}

/// Gives one entry behind ".." the number of ".".
fn inside_itself(rng: &mut Rng, parts: &mut [Part]) {
    let Part::Live(_, own) = parts[0] else {
        return;
    };
    let is_live = |at: &usize| matches!(parts[*at], Part::Live(..));
    let entries: Vec<usize> = (2..parts.len()).filter(is_live).collect();
    if entries.is_empty() {
        return;
    }
    if let Part::Live(_, number) = &mut parts[rng.pick(&entries)] {
        *number = own;
    }
}

/// Moves some bytes from one gap to another, so that what is between them stands off its place.
fn uneven(rng: &mut Rng, parts: &mut [Part]) {
    let by = rng.between(1, 7);
    let mut gaps = parts.iter_mut().filter_map(|part| match part {
        Part::Gap(len) if *len > 8 => Some(len),
        _ => None,
    });
    if let (Some(one), Some(other)) = (gaps.next(), gaps.next()) {
        *one += by;
        *other -= by;
    }
}

/// Gives one entry the name of an earlier one that takes the same room.
fn repeat(parts: &mut [Part], from: usize) {
    let count = parts.len();
    for later in (0..count).map(|at| (at + from) % count) {
        let (before, after) = parts.split_at_mut(later);
        let Some(Part::Live(name, _)) = after.first_mut() else {
            continue;
        };
        let same = before.iter().find_map(|part| match part {
            Part::Live(other, _) if room(other.len()) == room(name.len()) => Some(other),
            _ => None,
        });
        if let Some(other) = same {
            *name = other.clone();
            return;
        }
    }
}

/// Lays the parts out over random bytes, with index, tail and best-gap table.
fn write_block(rng: &mut Rng, len: usize, parts: &[Part], stale: usize) -> Vec<u8> {
    let mut bytes = rng.bytes(len);
    let mut place = 16;
    let mut slots = Vec::new();
    let mut gaps = Vec::new();
    for part in parts {
        put16(&mut bytes, place + part.len() - 2, place);
        match part {
            Part::Live(name, number) => {
                put(&mut bytes, place, &number.to_be_bytes());
                bytes[place + 8] = name.len() as u8;
                put(&mut bytes, place + 9, name);
                slots.push((hash(name), rng.next(), place as u32 / 8));
            }
            Part::Gap(gap) => {
                put16(&mut bytes, place, 0xffff);
                put16(&mut bytes, place + 2, *gap);
                gaps.push((*gap, rng.next(), place));
            }
        }
        place += part.len();
    }
    for _ in 0..stale {
        let hash = match rng.below(3) {
            0 => rng.next() as u32,
            1 => rng.pick(&slots).0,
            _ => rng.pick(&[0, 0x2e, 0x172e, u32::MAX]),
        };
        slots.push((hash, rng.next(), 0));
    }
    write_index(&mut bytes, slots, stale);
    write_best(&mut bytes, gaps);
    bytes
}

/// The slots by hash, in random order among equals, and the tail.
fn write_index(bytes: &mut [u8], mut slots: Vec<(u32, u64, u32)>, stale: usize) {
    slots.sort();
    let tail = bytes.len() - 8;
    let mut place = tail - 8 * slots.len();
    for (hash, _, address) in &slots {
        put(bytes, place, &hash.to_be_bytes());
        put(bytes, place + 4, &address.to_be_bytes());
        place += 8;
    }
    put(bytes, tail, &(slots.len() as u32).to_be_bytes());
    put(bytes, tail + 4, &(stale as u32).to_be_bytes());
    put(bytes, 0, b"XD2B");
}

/// A best-gap table of any gaps in any order.
fn any_best(rng: &mut Rng, bytes: &mut [u8], parts: &[Part]) {
    let mut place = 16;
    let mut gaps = Vec::new();
    for part in parts {
        if let Part::Gap(len) = part {
            gaps.push((rng.next(), place, *len));
        }
        place += part.len();
    }
    gaps.sort();
    for (at, (_, offset, len)) in gaps.into_iter().take(3).enumerate() {
        put16(bytes, 4 + 4 * at, offset);
        put16(bytes, 6 + 4 * at, len);
    }
}

/// The longest gaps, in random order among equals.
fn write_best(bytes: &mut [u8], mut gaps: Vec<(usize, u64, usize)>) {
    gaps.sort();
    gaps.reverse();
    gaps.resize(gaps.len().max(3), (0, 0, 0));
    for (at, (len, _, offset)) in gaps.iter().take(3).enumerate() {
        put16(bytes, 4 + 4 * at, *offset);
        put16(bytes, 6 + 4 * at, *len);
    }
}

/// What stands in the place of a block's own number; 0 where the bytes end before.
pub fn own_number(bytes: &[u8]) -> u64 {
    let number = bytes.get(16..24).and_then(<[u8]>::first_chunk);
    number.map_or(0, |number| u64::from_be_bytes(*number))
}

/// A block of "." and ".." only, over random bytes.
pub fn fresh_block(rng: &mut Rng, len: usize) -> Vec<u8> {
    let parts = [
        Part::Live(b".".to_vec(), 128),
        Part::Live(b"..".to_vec(), 128),
        Part::Gap(len - 24 - 2 * 24),
    ];
    write_block(rng, len, &parts, 0)
}

/// An inode core over random bytes.
fn core(rng: &mut Rng, len: usize, mode: usize, forkoff: usize) -> Vec<u8> {
    let mut inode = rng.bytes(len);
    put(&mut inode, 0, b"IN");
    put16(&mut inode, 2, mode);
    inode[4] = rng.pick(&[1, 2]);
    inode[82] = forkoff as u8;
    inode
}

/// The largest forkoff of an inode of this length.
pub fn max_forkoff(len: usize) -> usize {
    (len - 100) / 8
}

struct Short {
    tag: usize,
    name: Vec<u8>,
    number: u64,
}

fn is_wide(number: u64) -> bool {
    number >> 32 != 0
}

/// The wide numbers among a parent and entries.
fn wide_count(parent: u64, entries: &[Short]) -> usize {
    let numbers = entries.iter().map(|entry| entry.number);
    numbers.chain([parent]).filter(|&n| is_wide(n)).count()
}

fn short_size(parent: u64, entries: &[Short]) -> usize {
    let width = match wide_count(parent, entries) {
        0 => 4,
        _ => 8,
    };
    let size = |entry: &Short| 3 + entry.name.len() + width;
    2 + width + entries.iter().map(size).sum::<usize>()
}

/// What the tags and the index of these entries take in a block.
fn short_need(entries: &[Short]) -> usize {
    let end = entries.last().map_or(48, |e| e.tag + room(e.name.len()));
    end + 8 * (entries.len() + 2) + 8
}

/// A short-form directory with or without attribute fork, and the block size it is told.
pub fn sfdir(rng: &mut Rng, len: usize, faults: &[Fault]) -> (Vec<u8>, u64) {
    let forkoff = match rng.below(3) {
        0 => rng.between(1, max_forkoff(len)),
        _ => 0,
    };
    let fork = match forkoff {
        0 => len - 100,
        _ => 8 * forkoff,
    };
    let mode = 0x4000 + rng.below(0x1000);
    let mut inode = core(rng, len, mode, forkoff);
    inode[5] = 1;
    // A wide header is 10 bytes long.
    let wide_parent = fork >= 10 && rng.one_in(3);
    let mut parent = names::legal_number(rng, wide_parent);
    let mut entries = shorts(rng, fork, parent);
    let block_size = spread(rng, &mut entries);
    let any_wide = wide_count(parent, &entries) > 0;
    for fault in faults {
        spoil_shorts(rng, &mut entries, &mut parent, *fault);
    }
    write_sfdir(&mut inode, &entries, parent, any_wide);
    (inode, block_size)
}

fn shorts(rng: &mut Rng, fork: usize, parent: u64) -> Vec<Short> {
    let mut entries: Vec<Short> = Vec::new();
    let mut there = BTreeSet::new();
    let stop = rng.pick(&[2, 6, 40, 1000]);
    let wide = rng.pick(&[2, 6, 1000]);
    let mut tag = 48;
    while !rng.one_in(stop) {
        if rng.one_in(4) {
            tag += 8 * rng.below(10);
        }
        let name = new_name(rng, &there);
        let wide = rng.one_in(wide);
        let number = names::legal_number(rng, wide);
        let next = tag + room(name.len());
        there.insert(name.clone());
        entries.push(Short { tag, name, number });
        if short_size(parent, &entries) > fork || short_need(&entries) > LARGEST {
            entries.pop();
            break;
        }
        tag = next;
    }
    entries
}

/// A block size that the entries fit, and sometimes later tags moved up close to its limit.
fn spread(rng: &mut Rng, entries: &mut [Short]) -> u64 {
    let need = short_need(entries);
    let sizes: Vec<usize> = BLOCK_SIZES.into_iter().filter(|&s| s >= need).collect();
    let size = match rng.one_in(2) {
        true => sizes[0],
        false => rng.pick(&sizes),
    };
    if !entries.is_empty() && rng.one_in(2) {
        let from = rng.below(entries.len());
        let slack = rng.pick(&[0, 0, 8, 8, 16, 24, 32]).min(size - need);
        for entry in &mut entries[from..] {
            entry.tag += size - need - slack;
        }
    }
    size as u64
}

fn spoil_shorts(rng: &mut Rng, entries: &mut [Short], parent: &mut u64, fault: Fault) {
    if fault == Fault::Number && (entries.is_empty() || rng.one_in(3)) {
        *parent = bad_number(rng);
    }
    if entries.is_empty() {
        return;
    }
    let at = rng.below(entries.len());
    match fault {
        Fault::Number => entries[at].number = bad_number(rng),
        Fault::Twice => {
            let other = entries[0].name.clone();
            let same = |e: &&mut Short| e.name.len() == other.len();
            if let Some(entry) = entries[1..].iter_mut().find(same) {
                entry.name = other;
            }
        }
        Fault::Name | Fault::Dots => {
            let name = bad_name(rng);
            let same = |e: &&mut Short| e.name.len() == name.len();
            match entries.iter_mut().find(same) {
                Some(entry) => entry.name = name,
                None => entries[at].name[0] = 0,
            }
        }
        _ => {}
    }
}

fn write_sfdir(inode: &mut [u8], entries: &[Short], parent: u64, wide: bool) {
    let width = if wide { 8 } else { 4 };
    let number = |number: u64| number.to_be_bytes()[8 - width..].to_vec();
    let i8count = wide_count(parent, entries);
    // A fault may have made the last wide number narrow; the width must stay.
    let i8count = if wide { i8count.max(1) } else { 0 };
    let mut list = vec![entries.len() as u8, i8count as u8];
    list.extend(number(parent));
    for entry in entries {
        list.push(entry.name.len() as u8);
        list.extend((entry.tag as u16).to_be_bytes());
        list.extend(&entry.name);
        list.extend(number(entry.number));
    }
    put(inode, 56, &(list.len() as u64).to_be_bytes());
    put(inode, 100, &list);
}

/// An inode with short-form attributes.
pub fn attrs(rng: &mut Rng, len: usize, faults: &[Fault]) -> Vec<u8> {
    let top = rng.between(1, max_forkoff(len));
    let forkoff = rng.between(1, top);
    let fork = len - 100 - 8 * forkoff;
    let mode = rng.below(0x10000);
    let mut inode = core(rng, len, mode, forkoff);
    inode[83] = 1;
    let mut entries = attr_list(rng, fork);
    for fault in faults {
        spoil_attrs(rng, &mut entries, *fault);
    }
    let mut list = vec![0, 0, entries.len() as u8, rng.byte()];
    for (name, flags, value) in &entries {
        list.extend([name.len() as u8, value.len() as u8, *flags]);
        list.extend(name);
        list.extend(value);
    }
    let totsize = list.len();
    put16(&mut list, 0, totsize);
    put(&mut inode, 100 + 8 * forkoff, &list);
    inode
}

type Attr = (Vec<u8>, u8, Vec<u8>);

fn attr_list(rng: &mut Rng, fork: usize) -> Vec<Attr> {
    let mut entries: Vec<Attr> = Vec::new();
    let mut there = BTreeSet::new();
    let small = rng.one_in(3);
    let stop = rng.pick(&[3, 10, 1000]);
    let mut used = 4;
    while entries.len() < 255 && !rng.one_in(stop) {
        let flags = rng.pick(&[0, 2, 4]);
        let name = attr_name(rng, small);
        let top = rng.pick(&[0, 0, 4, 40, 255]);
        let len = if small { 0 } else { rng.between(0, top) };
        let value = rng.bytes(len);
        used += 3 + name.len() + value.len();
        if used > fork {
            break;
        }
        if there.insert((name.clone(), flags)) {
            entries.push((name, flags, value));
        } else {
            used -= 3 + name.len() + value.len();
        }
    }
    entries
}

/// An attribute's name; it may hold "/".
pub fn attr_name(rng: &mut Rng, small: bool) -> Vec<u8> {
    if small {
        return vec![rng.byte().max(1)];
    }
    let mut name = match rng.one_in(4) {
        true => names::legal(rng),
        false => {
            let len = rng.between(1, 8);
            names::of_len(rng, len)
        }
    };
    if rng.one_in(6) {
        let at = rng.below(name.len());
        name[at] = b'/';
    }
    name
}

fn spoil_attrs(rng: &mut Rng, entries: &mut [Attr], fault: Fault) {
    if entries.is_empty() {
        return;
    }
    let at = rng.below(entries.len());
    match fault {
        Fault::Name => {
            let (name, _, value) = &mut entries[at];
            match name.first_mut() {
                Some(byte) if rng.one_in(2) => *byte = 0,
                _ => value.append(name),
            }
            value.truncate(255);
        }
        Fault::Number => entries[at].1 = rng.pick(&[1, 3, 5, 6, 7, 8, 0x80, 0xff]),
        Fault::Twice => {
            let (name, flags, _) = entries[0].clone();
            let same = |entry: &&mut Attr| entry.0.len() == name.len();
            if let Some(entry) = entries[1..].iter_mut().find(same) {
                (entry.0, entry.1) = (name, flags);
            }
        }
        _ => {}
    }
}
