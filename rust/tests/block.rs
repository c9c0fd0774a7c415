//! Block directories: every call over real, damaged, generated and junk blocks and long lists of calls,
//! held to the model.

mod common;

use common::build::{self, Fault, BLOCK_SIZES};
use common::calls::Lab;
use common::damage::{self, Fields};
use common::frame::{self, Case, Structure};
use common::{images, names, rounds, Rng, V4};
use pelunziwa::alike;
use pelunziwa::model::{self, block, entry_size, Change, END};

const TESTS: [u32; 9] = [1, 2, 4, 5, 6, 7, 8, 9, 10];

#[test]
fn blocks() {
    let mut lab = Lab::new(0xb10c);
    frame::run::<Blocks<ANY>>(&mut lab);
    all_reached(&lab);
}

#[test]
fn blocks_of_32768() {
    large::<32_768>(0xb32b);
}

#[test]
fn blocks_of_65536() {
    large::<65_536>(0xb64b);
}

/// Blocks of one large size by themselves: everything is reached with them too, and refusal 1 with lengths beside it.
fn large<const LEN: usize>(seed: u64) {
    let mut lab = Lab::new(seed);
    frame::generated::<Blocks<LEN>>(&mut lab);
    Blocks::<LEN>::lists(&mut lab);
    for len in [LEN - 8, LEN - 1, LEN + 1, LEN + LEN / 2, 131_072] {
        let case = Case::of(build::fresh_block(&mut lab.rng, len));
        assert_eq!(Blocks::<LEN>::verdict(&case), 1);
        frame::each_call::<Blocks<LEN>>(&mut lab, &case, &[]);
    }
    println!("{} calls", lab.cover.calls());
    all_reached(&lab);
}

/// Each byte of a name counts, however long the name is: the block is accepted with the name's hash, 0 and "/" in a byte's place are
/// refused with 6, and another byte has another hash, 8.
#[test]
fn each_byte_of_a_name() {
    let mut lab = Lab::new(0x4b17);
    let fresh = build::fresh_block(&mut lab.rng, 512);
    for len in 1..=255 {
        let name = names::of_len(&mut lab.rng, len);
        let block = lab.block_insert(&fresh, &name, 5).bytes;
        assert_eq!(block::test(V4, &block), 0);
        lab.block_test(&block);
        // The entry stands at 48, behind ".."; its name follows 8 bytes of inode number and one of namelen.
        for at in 57..57 + len {
            let other = if block[at] == b'a' { b'b' } else { b'a' };
            for (byte, refusal) in [(0, 6), (b'/', 6), (other, 8)] {
                let mut copy = block.clone();
                copy[at] = byte;
                assert_eq!(block::test(V4, &copy), refusal);
                lab.block_test(&copy);
            }
        }
    }
    println!("{} calls", lab.cover.calls());
}

/// A bad name is refused with 11 also where it has a stored name's hash: lookup and removal search for it before they look at its bytes.
#[test]
fn bad_names_of_a_stored_hash() {
    let mut lab = Lab::new(0xbad5);
    for len in [2, 3, 8, 9, 12, 16, 17, 33, 100, 255] {
        for (good, bad) in [(b'.', b'/'), (1, 0)] {
            let at = lab.rng.below(len - 1);
            let mut stored = vec![b'n'; len];
            stored[at] = good;
            let asked = names::twin_at(&stored, at);
            assert_eq!(asked[at], bad);
            let fresh = build::fresh_block(&mut lab.rng, 512);
            let block = lab.block_insert(&fresh, &stored, 5).bytes;
            assert_eq!(block::lookup(V4, &block, &stored).refusal, 0);
            assert_eq!(block::lookup(V4, &block, &asked).refusal, 11);
            assert_eq!(block::remove(V4, &block, &asked).refusal, 11);
            lab.block_lookup(&block, &stored);
            lab.block_lookup(&block, &asked);
            lab.block_remove(&block, &asked);
            lab.block_insert(&block, &asked, 5);
        }
    }
}

/// A call takes no more stack than the header says, on the largest block, whose names have to be sorted: a thread has little more.
#[test]
fn stack_of_a_call() {
    let mut bytes = build::fresh_block(&mut Rng::new(1), 65_536);
    for name in alike::in_both(1 << 11) {
        let _ = pelunziwa::block::insert(&mut bytes, &name, 5);
    }
    let calls = move || {
        assert!(pelunziwa::block::test(&bytes).is_ok());
        assert!(pelunziwa::block::lookup(&bytes, b"none").is_err());
        assert!(pelunziwa::block::remove(&mut bytes, b"none").is_err());
        assert!(pelunziwa::block::insert(&mut bytes, &[b'l'; 255], 5).is_err());
    };
    let thread = std::thread::Builder::new().stack_size(144 << 10);
    let thread = thread.spawn(calls).expect("a thread");
    assert!(thread.join().is_ok());
}

/// Where the entries stand, but for "." and "..".
fn offsets(bytes: &[u8]) -> Vec<usize> {
    let block = block::read(V4, bytes).unwrap_or_else(|n| panic!("refused with {n}"));
    block.live().map(|(offset, _, _)| offset).skip(2).collect()
}

/// Names of one hash, no two of them equal, and names that share the library's second hash too: a block full of them is accepted, and refused
/// with 10 with one of them stored twice, whichever two slots theirs are, and with stale slots among them.
#[test]
fn names_of_one_hash() {
    let mut lab = Lab::new(0x0e5a);
    let in_hash: Vec<_> = (0..1 << 11).map(alike::in_hash).collect();
    let in_both = alike::in_both(1 << 11);
    let key = alike::key(&in_both[0]);
    assert!(in_both.iter().all(|name| alike::key(name) == key));
    assert!(in_hash.iter().all(|name| alike::key(name) != key));
    for names in [in_hash, in_both] {
        assert_eq!(names.len(), 1 << 11);
        let hash = model::hash(&names[0]);
        assert!(names.iter().all(|name| model::hash(name) == hash));
        for len in BLOCK_SIZES {
            let mut bytes = build::fresh_block(&mut lab.rng, len);
            let stored: Vec<_> = names
                .iter()
                .take_while(|name| pelunziwa::block::insert(&mut bytes, name, 5).is_ok())
                .collect();
            twice_anywhere(&mut lab, &bytes, names[0].len());
            for name in stored.iter().step_by(3) {
                assert!(pelunziwa::block::remove(&mut bytes, name).is_ok());
            }
            twice_anywhere(&mut lab, &bytes, names[0].len());
        }
    }
    println!("{} calls", lab.cover.calls());
}

/// The block is accepted, and refused with 10 with one name, of those of this length, in another's place.
fn twice_anywhere(lab: &mut Lab, bytes: &[u8], len: usize) {
    assert_eq!(block::test(V4, bytes), 0);
    lab.block_test(bytes);
    let at = offsets(bytes);
    let last = at.len() - 1;
    let mut pairs = vec![(0, 1), (0, last), (last, 0), (last - 1, last)];
    pairs.extend((0..12).map(|_| (lab.rng.below(at.len()), lab.rng.below(at.len()))));
    for (i, j) in pairs.into_iter().filter(|(i, j)| i != j) {
        let mut copy = bytes.to_vec();
        copy.copy_within(at[i] + 9..at[i] + 9 + len, at[j] + 9);
        assert_eq!(block::test(V4, &copy), 10);
        lab.block_test(&copy);
    }
}

/// Slots that are right by themselves, and wrong together: two change addresses, two have one, one goes stale or past the data.
#[test]
fn slots_of_other_entries() {
    let mut lab = Lab::new(0x5107);
    for len in BLOCK_SIZES {
        let mut bytes = build::fresh_block(&mut lab.rng, len);
        for _ in 0..len / 10 {
            let name = names::legal(&mut lab.rng);
            let _ = pelunziwa::block::insert(&mut bytes, &name, 5);
        }
        let end = block::read(V4, &bytes).map(|b| b.data_end());
        let end = end.unwrap_or_else(|n| panic!("refused with {n}"));
        let addresses: Vec<_> = (end + 4..len - 8).step_by(8).collect();
        // Some 120 slots of the larger blocks, each with 12 others.
        let some = addresses.iter().step_by(addresses.len().div_ceil(120));
        let mut tried = 0;
        for &p in some {
            for &q in addresses.iter().take(12) {
                let mut copy = bytes.clone();
                copy.copy_within(p..p + 4, q);
                lab.block_test(&copy);
                copy[p..p + 4].copy_from_slice(&bytes[q..q + 4]);
                lab.block_test(&copy);
                tried += 2;
            }
            for address in [
                0,
                1,
                end / 8,
                len / 8 - 1,
                len / 8,
                1 << 29,
                u32::MAX as usize,
            ] {
                let mut copy = bytes.clone();
                copy[p..p + 4].copy_from_slice(&(address as u32).to_be_bytes());
                lab.block_test(&copy);
                tried += 1;
            }
        }
        assert!(tried > 100, "{tried}");
    }
    println!("{} calls", lab.cover.calls());
    lab.cover.require("block_test", &[8], &[], &[]);
}

/// An entry bears the own number: each call meets such a block.
const STORED: &str = "own number stored";

fn all_reached(lab: &Lab) {
    let numbers = [STORED, "parent is itself"];
    lab.cover.require("block_test", &TESTS, &[], &numbers);
    let compared = [
        STORED,
        "found after 2 or more",
        "absent after none",
        "absent after 2 or more",
    ];
    lab.cover
        .require("block_lookup", &TESTS, &[11, 13], &compared);
    let rooms = [
        STORED,
        "own number asked",
        "room (a)",
        "room (b)",
        "room (b) without T",
        "room (c)",
        "room (c) uses T up",
        "room (d)",
        "beside an equal stale hash",
        "beside an equal live hash",
        "no room",
        "name of 255",
        "leaves no gap",
    ];
    lab.cover
        .require("block_insert", &TESTS, &[11, 12, 14, 15], &rooms);
    let joins = [
        STORED,
        "joins none",
        "joins left",
        "joins right",
        "joins both",
    ];
    lab.cover
        .require("block_remove", &TESTS, &[11, 12, 13], &joins);
    let seen = [STORED, "live", "gap", "end"];
    lab.cover.require("block_step", &TESTS, &[11], &seen);
}

/// Blocks; those that are generated have so many bytes, or any allowed number. Large ones, whose calls take long, are fewer.
struct Blocks<const LEN: usize>;

const ANY: usize = 0;

impl<const LEN: usize> Structure for Blocks<LEN> {
    type Key = Vec<u8>;
    const CALL: &'static str = "block";
    const GENERATED: usize = if LEN == ANY { 6000 } else { 150 };
    const JUNK: usize = 3000;
    const PUTS: &'static [usize] = &[9, 2, 5, 10];
    const TURN: usize = 200;

    fn held(case: &Case) -> Vec<Vec<u8>> {
        match block::read(V4, &case.bytes) {
            Ok(block) => block.live().map(|(_, _, name)| name.to_vec()).collect(),
            Err(_) => Vec::new(),
        }
    }

    fn verdict(case: &Case) -> u32 {
        block::test(V4, &case.bytes)
    }

    fn fields(case: &Case) -> Vec<Fields> {
        damage::block_fields(&case.bytes)
    }

    fn first_place(_case: &Case) -> u64 {
        16
    }

    fn places(case: &Case) -> Vec<u64> {
        let end = case.bytes.len().max(8) as u64;
        let mut places = vec![8, 16, 32, 48, end, end - 8];
        if let Ok(block) = block::read(V4, &case.bytes) {
            places.extend(block.live().map(|(offset, _, _)| offset as u64));
            places.extend(block.gaps().iter().map(|gap| gap.0 as u64));
            places.push(block.data_end() as u64);
        }
        places
    }

    fn asked(rng: &mut Rng, held: &[Vec<u8>]) -> Vec<u8> {
        names::asked(rng, held)
    }

    fn to_put(lab: &mut Lab, case: &Case, held: &[Vec<u8>], asked: Vec<u8>) -> Vec<u8> {
        let longest = usize::from(case.bytes[6]) << 8 | usize::from(case.bytes[7]);
        let room = lab.rng.pick(&[longest, longest.saturating_sub(8)]);
        match (lab.rng.below(8), filling(lab, room)) {
            (0, Some(name)) => name,
            (0..=2, _) => asked,
            (3, _) if !held.is_empty() => {
                let one = lab.rng.pick(held);
                names::twin(&mut lab.rng, &one).unwrap_or(one)
            }
            _ => names::legal(&mut lab.rng),
        }
    }

    fn test(lab: &mut Lab, case: &Case) {
        lab.block_test(&case.bytes);
    }

    fn look(lab: &mut Lab, case: &Case, name: &Vec<u8>) {
        lab.block_lookup(&case.bytes, name);
    }

    fn put(lab: &mut Lab, case: &Case, name: &Vec<u8>) -> Change {
        let own = build::own_number(&case.bytes);
        let number = names::number(&mut lab.rng, Some(own));
        lab.block_insert(&case.bytes, name, number)
    }

    fn take(lab: &mut Lab, case: &Case, name: &Vec<u8>) -> Change {
        lab.block_remove(&case.bytes, name)
    }

    fn step(lab: &mut Lab, case: &Case, place: u64) -> Option<u64> {
        let step = lab.block_step(&case.bytes, place);
        (step.refusal == 0 && step.seen != END).then_some(step.next)
    }

    fn more_real() -> Vec<Case> {
        let mut blocks = images::blocks("room-v4-n512.before", 512);
        blocks.extend(images::blocks("room-v4-n1024.before", 1024));
        blocks.into_iter().map(Case::of).collect()
    }

    fn generated(rng: &mut Rng, faults: &[Fault]) -> Case {
        let len = match LEN {
            ANY => build::block_len(rng),
            len => len,
        };
        Case::of(build::block(rng, len, faults))
    }

    /// Random bytes, and random bytes with the right magic and a likely tail.
    fn junk(rng: &mut Rng) -> Case {
        let len = match rng.below(6) {
            0 => rng.below(40),
            1 => rng.below(3000),
            _ => build::block_len(rng),
        };
        let mut bytes = rng.bytes(len);
        if len >= 32 && !rng.one_in(4) {
            bytes[..4].copy_from_slice(b"XD2B");
            let count = rng.below(len / 4) as u32;
            bytes[len - 8..len - 4].copy_from_slice(&count.to_be_bytes());
            bytes[len - 4..].copy_from_slice(&(count / 3).to_be_bytes());
            bytes[16..18].copy_from_slice(&[0xff, 0xff]);
        }
        Case::of(bytes)
    }

    fn small(rng: &mut Rng) -> Vec<Case> {
        let sizes = [512, 1024, 2048];
        sizes
            .map(|len| Case::of(build::block(rng, len, &[])))
            .into()
    }

    /// Inserts at the edge of each case of the room rule.
    fn edges(lab: &mut Lab, case: &Case) {
        let Ok(block) = block::read(V4, &case.bytes) else {
            return;
        };
        let at_slots = block.gaps().last().copied();
        let at_slots = at_slots.filter(|gap| gap.0 + gap.1 == block.data_end());
        let slot_gap = at_slots.map_or(0, |gap| gap.1);
        let grown = slot_gap + 8 * block.stale.saturating_sub(1);
        let longest = block.gaps().iter().map(|gap| gap.1).max().unwrap_or(0);
        for room in [
            longest,
            longest + 8,
            grown,
            grown + 8,
            slot_gap.saturating_sub(8),
            slot_gap,
        ] {
            if let Some(name) = filling(lab, room) {
                Self::put(lab, case, &name);
            }
        }
    }

    fn lists(lab: &mut Lab) {
        let sizes = match LEN {
            ANY => BLOCK_SIZES
                .into_iter()
                .filter(|&len| len <= 16_384)
                .collect(),
            len => vec![len],
        };
        for len in sizes {
            let calls = if len <= 2048 { 3000 } else { 2000 };
            for start in 0..rounds(4) {
                let block = match start % 2 {
                    0 => build::fresh_block(&mut lab.rng, len),
                    _ => build::block(&mut lab.rng, len, &[]),
                };
                frame::list::<Self>(lab, Case::of(block), calls);
            }
        }
    }
}

/// A name whose entry takes exactly `room`.
fn filling(lab: &mut Lab, room: usize) -> Option<Vec<u8>> {
    let longest = room.checked_sub(11)?.min(255);
    let shortest = room.saturating_sub(18).max(1);
    if shortest > longest {
        return None;
    }
    let len = lab.rng.between(shortest, longest);
    assert_eq!(entry_size(V4, len), room);
    Some(names::of_len(&mut lab.rng, len))
}
