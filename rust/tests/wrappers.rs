//! The safe wrappers: each answer is the model's as a Rust value, over generated structures.

mod common;

use common::build::{self, INODE_SIZES};
use common::{names, rounds, Rng, V4};
use pelunziwa::{attr, block, inode, model, sfdir, Found, Refusal, Seen};

fn code<T>(result: &Result<T, Refusal>) -> u32 {
    match result {
        Ok(_) => 0,
        Err(refusal) => refusal.number(),
    }
}

/// Number, tag and names compared, as a wrapper tells them and as the model does.
fn told(found: Found) -> (u64, u64, u64) {
    (found.number, found.tag, found.compared)
}

fn told_by(model: model::Found) -> (u64, u64, u64) {
    (model.number, model.tag, model.compared)
}

#[test]
fn refusals() {
    for none in [0, 16, 17, u32::MAX] {
        assert_eq!(Refusal::from_number(none), None);
    }
    let header = include_str!("../../include/pelunziwa.h");
    assert!(header.contains("   16         retired, not given\n"));
    assert!(!header.contains("NARROW"));
    for number in 1..=15 {
        let refusal = Refusal::from_number(number).expect("1 to 15");
        assert_eq!(refusal.number(), number);
        let (name, sentence) = (refusal.name(), refusal.sentence());
        let said = format!("refused {number} ({name}): {sentence}");
        assert_eq!(refusal.to_string(), said);
        let in_c = format!("case PZW_{name}: return \"{sentence}\";");
        assert!(header.contains(&in_c), "the header says otherwise: {said}");
        let in_table = format!("{number:5} {name} ");
        assert!(header.contains(&in_table), "not in its table: {said}");
    }
}

#[test]
fn hashes() {
    let mut rng = Rng::new(1);
    for len in 0..300 {
        let name = rng.bytes(len);
        assert_eq!(pelunziwa::hash(&name), model::hash(&name));
    }
}

#[test]
fn inodes() {
    let mut rng = Rng::new(2);
    for _ in 0..rounds(1000) {
        let len = rng.pick(&INODE_SIZES);
        let mut bytes = build::attrs(&mut rng, len, &[]);
        bytes[82] = rng.byte();
        bytes[4] = rng.below(4) as u8;
        let want = model::inode::test(V4, &bytes);
        let got = inode::test(&bytes);
        assert_eq!(code(&got), want.refusal);
        if let Ok(core) = got {
            let small = [core.magic, core.mode].map(u32::from);
            assert_eq!(small, [want.magic, want.mode]);
            let bytes = [core.version, core.format, core.forkoff, core.aformat].map(u32::from);
            assert_eq!(
                bytes,
                [want.version, want.format, want.forkoff, want.aformat]
            );
            assert_eq!(core.size, want.size);
        }
    }
}

#[test]
fn blocks() {
    let mut rng = Rng::new(3);
    for _ in 0..rounds(300) {
        let len = build::block_len(&mut rng).min(4096);
        let faults = build::faults(&mut rng);
        let mut bytes = build::block(&mut rng, len, &faults);
        listed_block(&bytes);
        let held = match model::block::read(V4, &bytes) {
            Ok(block) => block.live().map(|entry| entry.2.to_vec()).collect(),
            Err(_) => Vec::new(),
        };
        for _ in 0..10 {
            let name = names::asked(&mut rng, &held);
            let want = model::block::lookup(V4, &bytes, &name);
            match block::lookup(&bytes, &name) {
                Ok(found) => assert_eq!((0, told(found)), (want.refusal, told_by(want))),
                Err(missed) => assert_eq!(
                    (missed.refusal.number(), missed.compared),
                    (want.refusal, want.compared)
                ),
            }
            let number = names::number(&mut rng, Some(build::own_number(&bytes)));
            let want = model::block::insert(V4, &bytes, &name, number);
            let got = block::insert(&mut bytes, &name, number);
            assert_eq!((code(&got), &bytes), (want.refusal, &want.bytes));
            let name = names::asked(&mut rng, &held);
            let want = model::block::remove(V4, &bytes, &name);
            let got = block::remove(&mut bytes, &name);
            assert_eq!((code(&got), &bytes), (want.refusal, &want.bytes));
        }
        listed_block(&bytes);
    }
}

/// The entries as the model has them, or one refusal.
fn listed_block(bytes: &[u8]) {
    let got: Result<Vec<_>, Refusal> = block::entries(bytes).collect();
    assert_eq!(code(&block::test(bytes)), model::block::test(V4, bytes));
    match model::block::read(V4, bytes) {
        Ok(block) => {
            let got = got.expect("a right block is listed");
            let got = got.iter().map(|e| (e.tag as usize, e.number, e.name));
            assert!(got.eq(block.live()));
            let end = block::step(bytes, block.data_end() as u64).expect("the data's end");
            assert_eq!((end.next, end.seen), (block.data_end() as u64, Seen::End));
        }
        Err(refusal) => {
            assert_eq!(code(&got), refusal);
            assert_eq!(block::entries(bytes).count(), 1);
        }
    }
}

#[test]
fn short_form_directories() {
    let mut rng = Rng::new(4);
    for _ in 0..rounds(600) {
        let len = rng.pick(&INODE_SIZES);
        let faults = build::faults(&mut rng);
        let (mut bytes, size) = build::sfdir(&mut rng, len, &faults);
        listed_sfdir(&bytes, size);
        for _ in 0..10 {
            let held = match model::sfdir::read(V4, &bytes, size) {
                Ok(dir) => dir.entries.into_iter().map(|entry| entry.name).collect(),
                Err(_) => Vec::new(),
            };
            let name = names::asked(&mut rng, &held);
            let want = model::sfdir::lookup(V4, &bytes, size, &name);
            let got = sfdir::lookup(&bytes, size, &name);
            let nothing = (0, 0, 0);
            let number = code(&got);
            assert_eq!(
                (number, got.map_or(nothing, told)),
                (want.refusal, told_by(want))
            );
            let number = names::number(&mut rng, None);
            let want = model::sfdir::insert(V4, &bytes, size, &name, number);
            let got = sfdir::insert(&mut bytes, size, &name, number);
            assert_eq!((code(&got), &bytes), (want.refusal, &want.bytes));
            let name = names::asked(&mut rng, &held);
            let want = model::sfdir::remove(V4, &bytes, size, &name);
            let got = sfdir::remove(&mut bytes, size, &name);
            assert_eq!((code(&got), &bytes), (want.refusal, &want.bytes));
        }
        listed_sfdir(&bytes, size);
    }
}

fn listed_sfdir(bytes: &[u8], size: u64) {
    let got: Result<Vec<_>, Refusal> = sfdir::entries(bytes, size).collect();
    assert_eq!(
        code(&sfdir::test(bytes, size)),
        model::sfdir::test(V4, bytes, size)
    );
    match model::sfdir::read(V4, bytes, size) {
        Ok(dir) => {
            let got = got.expect("a right directory is listed");
            let got = got.iter().map(|e| (e.tag as usize, e.number, e.name));
            let want = dir.entries.iter().map(|e| (e.tag, e.number, &e.name[..]));
            assert!(got.eq(want));
        }
        Err(refusal) => assert_eq!(code(&got), refusal),
    }
}

#[test]
fn short_form_attributes() {
    let mut rng = Rng::new(5);
    for _ in 0..rounds(600) {
        let len = rng.pick(&INODE_SIZES);
        let faults = build::faults(&mut rng);
        let mut bytes = build::attrs(&mut rng, len, &faults);
        listed_attrs(&bytes);
        for _ in 0..10 {
            let flags = rng.pick(&[attr::USER, attr::TRUSTED, attr::SECURE, 1, 6]);
            let name = build::attr_name(&mut rng, true);
            let want = model::attr::lookup(V4, &bytes, &name, flags);
            let got = attr::lookup(&bytes, &name, flags);
            assert_eq!(code(&got), want.refusal);
            if let Ok(value) = got {
                let start = value.as_ptr() as usize - bytes.as_ptr() as usize;
                let place = (start as u64, value.len() as u64);
                assert_eq!(place, (want.start, want.len));
            }
            let len = rng.pick(&[0, 1, 5, 255, 256]);
            let value = rng.bytes(len);
            let want = model::attr::set(V4, &bytes, &name, flags, &value);
            let got = attr::set(&mut bytes, &name, flags, &value);
            assert_eq!((code(&got), &bytes), (want.refusal, &want.bytes));
            let name = build::attr_name(&mut rng, true);
            let want = model::attr::remove(V4, &bytes, &name, flags);
            let got = attr::remove(&mut bytes, &name, flags);
            assert_eq!((code(&got), &bytes), (want.refusal, &want.bytes));
        }
        listed_attrs(&bytes);
    }
}

fn listed_attrs(bytes: &[u8]) {
    let got: Result<Vec<_>, Refusal> = attr::entries(bytes).collect();
    assert_eq!(code(&attr::test(bytes)), model::attr::test(V4, bytes));
    match model::attr::read(V4, bytes) {
        Ok(attrs) => {
            let got = got.expect("right attributes are listed");
            let got = got.iter().map(|e| (e.flags, e.name, e.value));
            let want = attrs.entries.iter();
            assert!(got.eq(want.map(|e| (e.flags, &e.name[..], &e.value[..]))));
        }
        Err(refusal) => assert_eq!(code(&got), refusal),
    }
}
