//! Short-form directories: every call over real, damaged, generated and junk inodes and long lists of calls,
//! held to the model.

mod common;

use common::build::{self, Fault, BLOCK_SIZES, INODE_SIZES};
use common::calls::Lab;
use common::damage::{self, Fields};
use common::frame::{self, Case, Structure};
use common::{names, rounds, Rng, V4};
use pelunziwa::model::{self, sfdir, Change, END};

const TESTS: [u32; 9] = [1, 2, 3, 4, 5, 6, 7, 8, 10];

#[test]
fn short_form_directories() {
    let mut lab = Lab::new(0x5fd1);
    frame::run::<ShortForms>(&mut lab);
    lab.cover
        .require("sfdir_test", &TESTS, &[], &["parent not counted"]);
    lab.cover
        .require("sfdir_lookup", &TESTS, &[11, 12, 13], &["the parent"]);
    let rooms = [
        "tag follows",
        "tag hole",
        "no tag",
        "over the fork",
        "narrow to wide",
        "width kept",
        "wide for the parent alone",
        "fills the fork",
    ];
    lab.cover
        .require("sfdir_insert", &TESTS, &[11, 12, 14, 15], &rooms);
    let widths = [
        "wide to narrow",
        "width kept",
        "last wide entry out, still wide",
        "empty and wide",
    ];
    lab.cover
        .require("sfdir_remove", &TESTS, &[11, 12, 13], &widths);
    lab.cover
        .require("sfdir_step", &TESTS, &[11], &["live", "end"]);
}

struct ShortForms;

impl Structure for ShortForms {
    type Key = Vec<u8>;
    const CALL: &'static str = "sfdir";
    const GENERATED: usize = 12_000;
    const JUNK: usize = 6000;
    const PUTS: &'static [usize] = &[8, 3, 5];
    const TURN: usize = 60;

    fn held(case: &Case) -> Vec<Vec<u8>> {
        match sfdir::read(V4, &case.bytes, case.told) {
            Ok(dir) => dir.entries.into_iter().map(|entry| entry.name).collect(),
            Err(_) => Vec::new(),
        }
    }

    fn verdict(case: &Case) -> u32 {
        sfdir::test(V4, &case.bytes, case.told)
    }

    fn fields(case: &Case) -> Vec<Fields> {
        damage::sfdir_fields(&case.bytes, case.told)
    }

    fn first_place(case: &Case) -> u64 {
        pelunziwa::sfdir::first_place(&case.bytes)
    }

    fn places(case: &Case) -> Vec<u64> {
        let mut places = vec![6, 10, 100, 106];
        if let Ok(dir) = sfdir::read(V4, &case.bytes, case.told) {
            places.extend(dir.entries.iter().map(|entry| entry.place as u64));
            places.push(dir.size as u64);
        }
        places
    }

    fn asked(rng: &mut Rng, held: &[Vec<u8>]) -> Vec<u8> {
        names::asked(rng, held)
    }

    fn to_put(lab: &mut Lab, _case: &Case, _held: &[Vec<u8>], asked: Vec<u8>) -> Vec<u8> {
        let new = names::legal(&mut lab.rng);
        lab.rng.pick(&[asked, new])
    }

    fn test(lab: &mut Lab, case: &Case) {
        lab.sfdir_test(&case.bytes, case.told);
    }

    fn look(lab: &mut Lab, case: &Case, name: &Vec<u8>) {
        lab.sfdir_lookup(&case.bytes, case.told, name);
    }

    fn put(lab: &mut Lab, case: &Case, name: &Vec<u8>) -> Change {
        let number = names::number(&mut lab.rng, None);
        insert(lab, case, name, number)
    }

    fn take(lab: &mut Lab, case: &Case, name: &Vec<u8>) -> Change {
        lab.sfdir_remove(&case.bytes, case.told, name)
    }

    fn step(lab: &mut Lab, case: &Case, place: u64) -> Option<u64> {
        let step = lab.sfdir_step(&case.bytes, case.told, place);
        (step.refusal == 0 && step.seen != END).then_some(step.next)
    }

    fn generated(rng: &mut Rng, faults: &[Fault]) -> Case {
        let len = rng.pick(&INODE_SIZES);
        built(rng, len, faults)
    }

    fn junk(rng: &mut Rng) -> Case {
        let (mut bytes, cored) = build::junk_inode(rng, |rng| built(rng, 256, &[]).bytes);
        if cored {
            bytes[100] = rng.below(4) as u8;
        }
        let told = match rng.one_in(4) {
            true => other_size(rng),
            false => rng.pick(&BLOCK_SIZES) as u64,
        };
        Case { bytes, told }
    }

    fn small(rng: &mut Rng) -> Vec<Case> {
        INODE_SIZES.map(|len| built(rng, len, &[])).into()
    }

    /// An i8count that leaves the parent out; inserts that leave no byte of the fork, or miss it by one.
    fn edges(lab: &mut Lab, case: &Case) {
        let Ok(dir) = sfdir::read(V4, &case.bytes, case.told) else {
            return;
        };
        if dir.i8count > 1 && dir.parent > model::NARROW_MAX {
            let mut bytes = case.bytes.clone();
            bytes[dir.fork.start + 1] -= 1;
            lab.sfdir_test(&bytes, case.told);
            assert_eq!(sfdir::test(V4, &bytes, case.told), model::INDEX);
            lab.cover.note("sfdir_test", "parent not counted");
        }
        let wide = lab.rng.one_in(2);
        let number = names::legal_number(&mut lab.rng, wide);
        let widened = wide && dir.i8count == 0;
        let width = if wide || dir.i8count != 0 { 8 } else { 4 };
        let grown = dir.size
            + if widened {
                4 * (dir.entries.len() + 1)
            } else {
                0
            };
        let left = (dir.fork.len() + lab.rng.below(2)).checked_sub(grown + 3 + width);
        if let Some(len @ 1..=255) = left {
            let name = names::of_len(&mut lab.rng, len);
            insert(lab, case, &name, number);
        }
    }

    fn retold(lab: &mut Lab, case: &Case) -> Option<Case> {
        let told = other_size(&mut lab.rng);
        let bytes = case.bytes.clone();
        Some(Case { bytes, told })
    }

    fn lists(lab: &mut Lab) {
        for len in INODE_SIZES {
            for _ in 0..rounds(30) {
                let case = built(&mut lab.rng, len, &[]);
                frame::list::<ShortForms>(lab, case, 400);
            }
        }
    }
}

fn built(rng: &mut Rng, len: usize, faults: &[Fault]) -> Case {
    let (bytes, told) = build::sfdir(rng, len, faults);
    Case { bytes, told }
}

fn insert(lab: &mut Lab, case: &Case, name: &[u8], number: u64) -> Change {
    let change = lab.sfdir_insert(&case.bytes, case.told, name, number);
    let full = |dir: sfdir::Dir| dir.size == dir.fork.len();
    if change.refusal == 0 && sfdir::read(V4, &change.bytes, case.told).is_ok_and(full) {
        lab.cover.note("sfdir_insert", "fills the fork");
    }
    change
}

/// A block size that may be another than the one told so far, or none.
fn other_size(rng: &mut Rng) -> u64 {
    let odd = [
        0,
        1,
        256,
        511,
        513,
        768,
        49_152,
        65_535,
        65_537,
        131_072,
        u64::MAX,
        1 << 63,
        1 << 32,
    ];
    match rng.one_in(2) {
        true => rng.pick(&BLOCK_SIZES) as u64,
        false => rng.pick(&odd),
    }
}
