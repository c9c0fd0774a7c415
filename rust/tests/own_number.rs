//! The number of "." in a block: any entry but "." and ".." that bears it is refused with 7, and an insert of it with 11, in number order
//! with every other reason, and in every entry.

mod common;

use common::build::{self, BLOCK_SIZES};
use common::calls::Lab;
use common::{names, V4};
use pelunziwa::model::{self, block, field, put, Change};

/// Own numbers: narrow, wide, and the ends of both.
const OWN: [u64; 7] = [
    1,
    128,
    0xffff_ffff,
    1 << 32,
    (1 << 32) + 128,
    0xa1_b2c3_d4e5_f607,
    (1 << 56) - 1,
];

/// A parent that is another directory, and another number to insert.
const PARENT: u64 = 64;
const OTHER: u64 = 77;

const FIRST: &[u8] = b"first";
const LAST: &[u8] = b"last";
const NEW: &[u8] = b"new";
/// A name that finds no room in the directories below, though it is legal.
const LONG: &[u8] = &[b'l'; 255];

/// A block with this own number: entries of several lengths, two of them with names of one hash, two gaps, a stale slot.
fn directory(lab: &mut Lab, own: u64) -> Vec<u8> {
    let mut bytes = build::fresh_block(&mut lab.rng, 512);
    put(&mut bytes, 16, 8, own);
    put(&mut bytes, 32, 8, PARENT);
    let twin = names::twin_at(b"twin", 1);
    let stored = [FIRST, b"twin", b"gone", &twin, &[b'm'; 100], LAST];
    for (name, number) in stored.into_iter().zip(5000..) {
        let change = lab.block_insert(&bytes, name, number);
        assert_eq!(change.refusal, 0);
        bytes = change.bytes;
    }
    let change = lab.block_remove(&bytes, b"gone");
    assert_eq!(change.refusal, 0);
    change.bytes
}

/// Where the entries behind ".." stand.
fn entries(bytes: &[u8]) -> Vec<usize> {
    let block = block::read(V4, bytes).unwrap_or_else(|n| panic!("refused with {n}"));
    block.live().map(|(at, _, _)| at).skip(2).collect()
}

/// The bytes with a number in another's place.
fn with(bytes: &[u8], place: usize, width: usize, number: u64) -> Vec<u8> {
    let mut copy = bytes.to_vec();
    put(&mut copy, place, width, number);
    copy
}

/// Copies of such a directory that one test alone refuses, each with the test's number; each test but 7.
fn spoiled(bytes: &[u8]) -> Vec<(u32, Vec<u8>)> {
    let len = bytes.len();
    let [first, twin, other_twin, _, last] = entries(bytes)[..] else {
        panic!("five entries");
    };
    let count = field(bytes, len - 8, 4);
    let mut twice = bytes.to_vec();
    twice.copy_within(twin + 9..twin + 13, other_twin + 9);
    vec![
        (model::SIZE, bytes[..len - 8].to_vec()),
        (model::MAGIC, with(bytes, 0, 4, 0)),
        (model::SPAN, with(bytes, len - 8, 4, len as u64)),
        (model::SPAN, with(bytes, len - 4, 4, count + 1)),
        (model::TILE, with(bytes, first + 14, 2, 16)),
        (model::TILE, with(bytes, last + 14, 2, 16)),
        (model::NAME, with(bytes, 25, 1, u64::from(b'x'))),
        (model::NAME, with(bytes, 42, 1, u64::from(b'x'))),
        (model::NAME, with(bytes, first + 9, 1, u64::from(b'/'))),
        (model::NAME, with(bytes, last + 9, 1, 0)),
        (model::INDEX, with(bytes, len - 4, 4, 0)),
        (model::INDEX, with(bytes, len - 16, 4, 0)),
        (model::INDEX, with(bytes, len - 12, 4, 0)),
        (model::INDEX, with(bytes, last + 9, 1, u64::from(b'L'))),
        (model::BEST, with(bytes, 6, 2, 8)),
        (model::TWICE, twice),
    ]
}

/// The answer, of the model and of the library.
fn tested(lab: &mut Lab, bytes: &[u8], answer: u32) {
    assert_eq!(block::test(V4, bytes), answer);
    lab.block_test(bytes);
}

fn kept(change: Change, bytes: &[u8], refusal: u32) {
    assert_eq!(change.refusal, refusal);
    assert_eq!(change.bytes, bytes);
}

/// Every call refuses the block with this number.
fn refused(lab: &mut Lab, bytes: &[u8], refusal: u32) {
    tested(lab, bytes, refusal);
    assert_eq!(block::lookup(V4, bytes, FIRST).refusal, refusal);
    lab.block_lookup(bytes, FIRST);
    kept(lab.block_insert(bytes, NEW, OTHER), bytes, refusal);
    kept(lab.block_remove(bytes, FIRST), bytes, refusal);
    assert_eq!(lab.block_step(bytes, 16).refusal, refusal);
}

/// Blocks of every size: the own number in each entry, of larger blocks in some 120, and "." with the number of each of these.
#[test]
fn in_every_entry() {
    let mut lab = Lab::new(0x0e11);
    for (len, wide) in BLOCK_SIZES.map(|len| [(len, false), (len, true)]).concat() {
        let mut drawn = (0..1000).map(|_| build::block(&mut lab.rng, len, &[]));
        let bytes = drawn.find(|bytes| entries(bytes).len() >= 3);
        let bytes = bytes.expect("a block with three entries");
        let own = names::legal_number(&mut lab.rng, wide);
        let bytes = with(&bytes, 16, 8, own);
        tested(&mut lab, &bytes, 0);
        let entries = entries(&bytes);
        for &at in entries.iter().step_by(entries.len().div_ceil(120)) {
            tested(&mut lab, &with(&bytes, at, 8, own), model::NUMBER);
            let same = with(&bytes, 16, 8, field(&bytes, at, 8));
            tested(&mut lab, &same, model::NUMBER);
        }
        for place in [0, entries.len() / 2, entries.len() - 1] {
            let copy = with(&bytes, entries[place], 8, own);
            refused(&mut lab, &copy, model::NUMBER);
        }
    }
    println!("{} calls", lab.cover.calls());
}

/// Stored in each entry of a block that another test refuses: the lower number is the answer.
#[test]
fn stored_beside_another_fault() {
    let mut lab = Lab::new(0x0e12);
    for own in OWN {
        let bytes = directory(&mut lab, own);
        for (refusal, faulty) in spoiled(&bytes) {
            refused(&mut lab, &faulty, refusal);
            for at in entries(&bytes) {
                let copy = with(&faulty, at, 8, own);
                refused(&mut lab, &copy, refusal.min(model::NUMBER));
            }
        }
    }
    println!("{} calls", lab.cover.calls());
}

/// Asked for with every other reason to refuse: the block's own come first, and 11 before all others.
#[test]
fn asked_beside_another_reason() {
    let mut lab = Lab::new(0x0e13);
    let of_256 = [b'n'; 256];
    // Each name, and the answer to it with another number.
    let reasons: [(&[u8], u32); 11] = [
        (b"", model::ASKED),
        (b"a/b", model::ASKED),
        (b"a\0b", model::ASKED),
        (&of_256, model::ASKED),
        (b".", model::FIXED),
        (b"..", model::FIXED),
        (FIRST, model::EXISTS),
        (&[b'm'; 100], model::EXISTS),
        (LAST, model::EXISTS),
        (LONG, model::NOROOM),
        (NEW, 0),
    ];
    for own in OWN {
        let bytes = directory(&mut lab, own);
        let mut blocks = spoiled(&bytes);
        let places = entries(&bytes).into_iter();
        blocks.extend(places.map(|at| (model::NUMBER, with(&bytes, at, 8, own))));
        for (name, refusal) in reasons {
            let change = lab.block_insert(&bytes, name, OTHER);
            assert_eq!(change.refusal, refusal);
            kept(lab.block_insert(&bytes, name, own), &bytes, model::ASKED);
            for (refusal, faulty) in &blocks {
                kept(lab.block_insert(faulty, name, own), faulty, *refusal);
            }
        }
    }
    println!("{} calls", lab.cover.calls());
}

/// Numbers that differ from this one in one byte, whichever.
fn one_byte_off(own: u64) -> Vec<u64> {
    let off = |shift: u32| [1, 0x12, 0x80].map(|bits| own ^ bits << shift);
    (0..64).step_by(8).flat_map(off).collect()
}

/// Numbers close to the own one are refused only if they are out of range.
#[test]
fn other_numbers() {
    let mut lab = Lab::new(0x0e14);
    for own in OWN {
        let bytes = directory(&mut lab, own);
        for number in one_byte_off(own) {
            let legal = (1..1 << 56).contains(&number);
            let answer = if legal { 0 } else { model::NUMBER };
            for at in entries(&bytes) {
                tested(&mut lab, &with(&bytes, at, 8, number), answer);
            }
            let change = lab.block_insert(&bytes, NEW, number);
            if !legal {
                kept(change, &bytes, model::ASKED);
                continue;
            }
            assert_eq!(change.refusal, 0);
            assert_eq!(block::lookup(V4, &change.bytes, NEW).number, number);
            lab.block_lookup(&change.bytes, NEW);
        }
    }
    println!("{} calls", lab.cover.calls());
}

/// A root is its own parent; elsewhere entries may bear the parent's number, all of them.
#[test]
fn parents() {
    let mut lab = Lab::new(0x0e15);
    for own in OWN {
        let bytes = directory(&mut lab, own);
        let root = with(&bytes, 32, 8, own);
        for at in entries(&bytes) {
            refused(&mut lab, &with(&root, at, 8, own), model::NUMBER);
        }
        kept(lab.block_insert(&root, NEW, own), &root, model::ASKED);
        tested(&mut lab, &root, 0);
        assert_eq!(block::lookup(V4, &root, b"..").number, own);
        lab.block_lookup(&root, b"..");
        assert_eq!(lab.block_insert(&root, NEW, PARENT).refusal, 0);
        assert_eq!(lab.block_remove(&root, FIRST).refusal, 0);

        let places = entries(&bytes).into_iter();
        let up = places.fold(bytes.clone(), |copy, at| with(&copy, at, 8, PARENT));
        tested(&mut lab, &up, 0);
        assert_eq!(lab.block_insert(&up, NEW, PARENT).refusal, 0);
    }
    let reached = ["own number stored", "parent is itself"];
    lab.cover.require("block_test", &[7], &[], &reached);
}
