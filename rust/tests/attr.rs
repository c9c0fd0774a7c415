//! Short-form attributes: every call over real, damaged, generated and junk inodes and long lists of calls,
//! held to the model.

mod common;

use common::build::{self, Fault, INODE_SIZES};
use common::calls::Lab;
use common::damage::{self, Fields};
use common::frame::{self, Case, Structure};
use common::{names, rounds, Rng, V4};
use pelunziwa::model::{attr, Change, END};

const TESTS: [u32; 8] = [1, 2, 3, 4, 5, 6, 7, 10];

#[test]
fn short_form_attributes() {
    let mut lab = Lab::new(0xa77e);
    frame::run::<Attributes>(&mut lab);
    lab.cover.require("attr_test", &TESTS, &[], &[]);
    lab.cover
        .require("attr_lookup", &TESTS, &[11, 13], &["empty value"]);
    let sets = [
        "replaced",
        "appended",
        "value over 255",
        "count over 255",
        "totsize over the fork",
        "fills the fork",
        "value of 255",
        "count of 255",
    ];
    lab.cover.require("attr_set", &TESTS, &[11, 15], &sets);
    lab.cover.require("attr_remove", &TESTS, &[11, 13], &[]);
    lab.cover
        .require("attr_step_at", &TESTS, &[11], &["live", "end"]);
}

/// A name and its flags.
type Key = (Vec<u8>, u32);

struct Attributes;

impl Structure for Attributes {
    type Key = Key;
    const CALL: &'static str = "attr";
    const GENERATED: usize = 12_000;
    const JUNK: usize = 6000;
    const PUTS: &'static [usize] = &[8, 3, 5];
    const TURN: usize = 60;

    fn held(case: &Case) -> Vec<Key> {
        let Ok(attrs) = attr::read(V4, &case.bytes) else {
            return Vec::new();
        };
        let entries = attrs.entries.into_iter();
        entries.map(|entry| (entry.name, entry.flags)).collect()
    }

    fn verdict(case: &Case) -> u32 {
        attr::test(V4, &case.bytes)
    }

    fn fields(case: &Case) -> Vec<Fields> {
        damage::attr_fields(&case.bytes)
    }

    fn first_place(_case: &Case) -> u64 {
        pelunziwa::attr::FIRST_PLACE
    }

    fn places(case: &Case) -> Vec<u64> {
        let mut places = vec![3, 4, 100];
        if let Ok(attrs) = attr::read(V4, &case.bytes) {
            places.extend(attrs.entries.iter().map(|entry| entry.place as u64));
            places.push(attrs.totsize as u64);
        }
        places
    }

    fn asked(rng: &mut Rng, held: &[Key]) -> Key {
        asked(rng, held)
    }

    fn to_put(_lab: &mut Lab, _case: &Case, _held: &[Key], asked: Key) -> Key {
        asked
    }

    fn test(lab: &mut Lab, case: &Case) {
        lab.attr_test(&case.bytes);
    }

    fn look(lab: &mut Lab, case: &Case, (name, flags): &Key) {
        lab.attr_lookup(&case.bytes, name, *flags);
    }

    fn put(lab: &mut Lab, case: &Case, (name, flags): &Key) -> Change {
        let value = value(&mut lab.rng);
        set(lab, &case.bytes, name, *flags, &value)
    }

    fn take(lab: &mut Lab, case: &Case, (name, flags): &Key) -> Change {
        lab.attr_remove(&case.bytes, name, *flags)
    }

    fn step(lab: &mut Lab, case: &Case, place: u64) -> Option<u64> {
        let step = lab.attr_step(&case.bytes, place);
        (step.refusal == 0 && step.seen != END).then_some(step.next)
    }

    fn generated(rng: &mut Rng, faults: &[Fault]) -> Case {
        let len = rng.pick(&INODE_SIZES);
        Case::of(build::attrs(rng, len, faults))
    }

    fn junk(rng: &mut Rng) -> Case {
        let (mut bytes, cored) = build::junk_inode(rng, |rng| build::attrs(rng, 256, &[]));
        if cored {
            let fork = 100 + 8 * usize::from(bytes[82]);
            bytes[fork] = 0;
            bytes[fork + 2] = rng.below(4) as u8;
        }
        Case::of(bytes)
    }

    fn small(rng: &mut Rng) -> Vec<Case> {
        let built = INODE_SIZES.map(|len| build::attrs(rng, len, &[]));
        built.map(Case::of).into()
    }

    /// Sets that leave no byte of the fork, or miss it by one.
    fn edges(lab: &mut Lab, case: &Case) {
        let Ok(attrs) = attr::read(V4, &case.bytes) else {
            return;
        };
        let name = build::attr_name(&mut lab.rng, true);
        let left = (attrs.fork.len() + lab.rng.below(2)).checked_sub(attrs.totsize + 4);
        if let Some(len) = left {
            let value = lab.rng.bytes(len);
            set(lab, &case.bytes, &name, 0, &value);
        }
    }

    fn lists(lab: &mut Lab) {
        for len in INODE_SIZES {
            for _ in 0..rounds(30) {
                let inode = build::attrs(&mut lab.rng, len, &[]);
                frame::list::<Attributes>(lab, Case::of(inode), 400);
            }
        }
        for _ in 0..rounds(2) {
            many(lab);
        }
    }
}

/// A name and flags to ask for: mostly held ones, or a held name in another namespace, or new or odd ones.
fn asked(rng: &mut Rng, held: &[Key]) -> Key {
    let flags = rng.pick(&[0, 2, 4]);
    let small = rng.one_in(2);
    let new = (build::attr_name(rng, small), flags);
    let (name, held_flags) = match held.is_empty() {
        true => new.clone(),
        false => rng.pick(held),
    };
    match rng.below(16) {
        0 => (names::odd(rng), flags),
        1 => {
            let bad = [
                1,
                3,
                5,
                6,
                7,
                8,
                0x80,
                0xff,
                0x100,
                0x102,
                1 << 31,
                u32::MAX,
            ];
            (name, rng.pick(&bad))
        }
        2..=5 => new,
        6 | 7 => (name, flags),
        8 => (names::twin(rng, &name).unwrap_or(name), held_flags),
        _ => (name, held_flags),
    }
}

fn value(rng: &mut Rng) -> Vec<u8> {
    let len = match rng.below(12) {
        0 => 0,
        1 => rng.pick(&[255, 256, 257, 300, 511, 512, 513]),
        2 => rng.between(1, 255),
        _ => rng.between(0, 12),
    };
    rng.bytes(len)
}

fn set(lab: &mut Lab, inode: &[u8], name: &[u8], flags: u32, value: &[u8]) -> Change {
    let change = lab.attr_set(inode, name, flags, value);
    if change.refusal != 0 {
        return change;
    }
    let after = attr::read(V4, &change.bytes).expect("a set leaves a right list");
    if after.totsize == after.fork.len() {
        lab.cover.note("attr_set", "fills the fork");
    }
    if value.len() == 255 {
        lab.cover.note("attr_set", "value of 255");
    }
    if after.entries.len() == 255 {
        lab.cover.note("attr_set", "count of 255");
    }
    change
}

/// As many attributes as the count can tell, and more.
fn many(lab: &mut Lab) {
    let mut inode = build::attrs(&mut lab.rng, 2048, &[]);
    inode[82] = 1;
    inode[108..112].copy_from_slice(&[0, 4, 0, 0x5a]);
    for byte in 1..=255 {
        for flags in [0, 2] {
            inode = set(lab, &inode, &[byte], flags, b"").bytes;
        }
    }
    let case = Case::of(inode);
    let held = Attributes::held(&case);
    assert_eq!(held.len(), 255);
    for _ in 0..50 {
        frame::each_call::<Attributes>(lab, &case, &held);
    }
}
