//! Damage to a structure: wrong by one, swapped, copied, zeroed, flipped, cut and drawn out.

use super::{Rng, V4};
use pelunziwa::model::{attr, block, entry_size, field, inode, put, sfdir};

/// Places of like fields, each with its width.
pub type Fields = Vec<(usize, usize)>;

/// The structural fields of a block, by kind; those of the records only if the block is right.
pub fn block_fields(bytes: &[u8]) -> Vec<Fields> {
    let len = bytes.len();
    if len < 32 {
        return Vec::new();
    }
    let count = field(bytes, len - 8, 4).min(len as u64 / 8 - 3);
    let slots = (len - 8 - 8 * count as usize..len - 8).step_by(8);
    let mut kinds = vec![
        vec![(0, 4)],
        vec![(4, 2), (8, 2), (12, 2)],
        vec![(6, 2), (10, 2), (14, 2)],
        vec![(4, 4), (8, 4), (12, 4)],
        vec![(len - 8, 4), (len - 4, 4)],
        slots.clone().map(|place| (place, 4)).collect(),
        slots.clone().map(|place| (place + 4, 4)).collect(),
        slots.map(|place| (place, 8)).collect(),
    ];
    if let Ok(block) = block::read(V4, bytes) {
        kinds.extend(record_fields(&block));
    }
    kinds
}

fn record_fields(block: &block::Block) -> Vec<Fields> {
    let live = || block.live();
    let tag = |(at, _, name): (usize, u64, &[u8])| (at + entry_size(V4, name.len()) - 2, 2);
    let gaps = block.gaps();
    vec![
        live().map(|(at, _, _)| (at, 8)).collect(),
        live().map(|(at, _, _)| (at + 8, 1)).collect(),
        live().map(|(at, _, _)| (at + 9, 1)).collect(),
        live().map(tag).collect(),
        gaps.iter().map(|gap| (gap.0, 2)).collect(),
        gaps.iter().map(|gap| (gap.0 + 2, 2)).collect(),
        gaps.iter().map(|gap| (gap.0 + gap.1 - 2, 2)).collect(),
    ]
}

/// The fields of an inode's core.
fn core_fields() -> Vec<Fields> {
    [(0, 2), (2, 2), (4, 1), (5, 1), (56, 8), (82, 1), (83, 1)]
        .map(|field| vec![field])
        .to_vec()
}

/// The structural fields of a short-form directory, by kind; those of the entries only if it is right.
pub fn sfdir_fields(bytes: &[u8], block_size: u64) -> Vec<Fields> {
    let mut kinds = core_fields();
    kinds.extend([vec![(100, 1)], vec![(101, 1)], vec![(102, 4)]]);
    let Ok(dir) = sfdir::read(V4, bytes, block_size) else {
        return kinds;
    };
    let width = if dir.i8count == 0 { 4 } else { 8 };
    let entries = dir.entries.iter();
    let entries = entries.map(|e| (dir.fork.start + e.place, e.name.len()));
    kinds.push(entries.clone().map(|(at, _)| (at, 1)).collect());
    kinds.push(entries.clone().map(|(at, _)| (at + 1, 2)).collect());
    kinds.push(entries.clone().map(|(at, _)| (at + 3, 1)).collect());
    kinds.push(entries.map(|(at, len)| (at + 3 + len, width)).collect());
    kinds
}

/// The structural fields of an attribute fork, by kind; those of the entries only if it is right.
pub fn attr_fields(bytes: &[u8]) -> Vec<Fields> {
    let mut kinds = core_fields();
    let Ok(attrs) = attr::read(V4, bytes) else {
        return kinds;
    };
    let fork = attrs.fork.start;
    kinds.push(vec![(fork, 2)]);
    kinds.push(vec![(fork + 2, 1)]);
    for within in 0..4 {
        let places = attrs.entries.iter().map(|e| (fork + e.place + within, 1));
        kinds.push(places.collect());
    }
    kinds
}

/// The fields handed out of an inode.
pub fn inode_fields(bytes: &[u8]) -> Vec<Fields> {
    match inode::read(V4, bytes) {
        Ok(_) => core_fields(),
        Err(_) => Vec::new(),
    }
}

/// One hurt, mostly to a structural field; sometimes a second.
pub fn hurt(rng: &mut Rng, bytes: &mut [u8], kinds: &[Fields]) {
    loop {
        let kinds: Vec<&Fields> = kinds.iter().filter(|kind| !kind.is_empty()).collect();
        if kinds.is_empty() || rng.one_in(6) {
            let at = rng.below(bytes.len());
            let bit = 1 << rng.below(8);
            bytes[at] ^= rng.pick(&[bit, bit, 0xff]);
        } else {
            let kind = rng.pick(&kinds);
            hurt_field(rng, bytes, kind);
        }
        if !rng.one_in(5) {
            return;
        }
    }
}

fn hurt_field(rng: &mut Rng, bytes: &mut [u8], kind: &Fields) {
    let (place, width) = rng.pick(kind);
    let (other, other_width) = rng.pick(kind);
    let width = width.min(other_width);
    let here = field(bytes, place, width);
    let there = field(bytes, other, width);
    let new = match rng.below(10) {
        0 => here.wrapping_add(1),
        1 => here.wrapping_sub(1),
        2 => here.wrapping_add(8),
        3 => here.wrapping_sub(8),
        4 => 0,
        5 => u64::MAX,
        6 => rng.next(),
        7 => here ^ 1 << rng.below(8 * width),
        8 => there,
        _ => {
            put(bytes, other, width, here);
            there
        }
    };
    put(bytes, place, width, new);
}

/// Every structural field off by one and by eight, both ways, one at a time.
pub fn off_by_one(bytes: &[u8], kinds: &[Fields]) -> Vec<Vec<u8>> {
    let mut all = Vec::new();
    for &(place, width) in kinds.iter().flatten() {
        let here = field(bytes, place, width);
        for by in [1, u64::MAX, 8, 8u64.wrapping_neg()] {
            let mut copy = bytes.to_vec();
            put(&mut copy, place, width, here.wrapping_add(by));
            all.push(copy);
        }
    }
    all
}

/// Cut or drawn out to another length.
pub fn resized(rng: &mut Rng, bytes: &[u8]) -> Vec<u8> {
    let len = bytes.len();
    let lens = [
        0,
        1,
        7,
        8,
        99,
        100,
        255,
        256,
        512,
        len - 1,
        len - 8,
        len / 2,
        len + 1,
        len * 2,
        65_536,
        65_537,
        131_072,
    ];
    let len = rng.pick(&lens);
    let mut copy = bytes.to_vec();
    while copy.len() < len {
        copy.push(rng.byte());
    }
    copy.truncate(len);
    copy
}
