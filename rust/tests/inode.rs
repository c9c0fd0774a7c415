//! The inode core and the hash, held to the model.

mod common;

use common::build::{self, INODE_SIZES};
use common::calls::Lab;
use common::{damage, images, rounds};

#[test]
fn inodes() {
    let mut lab = Lab::new(0x190d);
    for (inode, _) in images::of_call("inode") {
        lab.inode_test(&inode);
        for bit in 0..8 * 100 {
            let mut copy = inode.clone();
            copy[bit / 8] ^= 1 << (bit % 8);
            lab.inode_test(&copy);
        }
        for copy in damage::off_by_one(&inode, &damage::inode_fields(&inode)) {
            lab.inode_test(&copy);
        }
        for _ in 0..rounds(8) {
            let copy = damage::resized(&mut lab.rng, &inode);
            lab.inode_test(&copy);
        }
    }
    forkoffs(&mut lab);
    junk(&mut lab);
    println!("{} calls", lab.cover.calls());
    lab.cover.require("inode_test", &[1, 2, 3], &[], &[]);
}

/// Every forkoff and version in every size.
fn forkoffs(lab: &mut Lab) {
    for len in INODE_SIZES {
        let mut inode = build::attrs(&mut lab.rng, len, &[]);
        for forkoff in 0..=255 {
            inode[82] = forkoff;
            lab.inode_test(&inode);
        }
        inode[82] = 0;
        for version in 0..=255 {
            inode[4] = version;
            lab.inode_test(&inode);
        }
    }
}

/// Random bytes of any length, with and without the magic.
fn junk(lab: &mut Lab) {
    for _ in 0..rounds(10_000) {
        let len = match lab.rng.below(3) {
            0 => lab.rng.below(2100),
            _ => lab.rng.pick(&INODE_SIZES),
        };
        let mut bytes = lab.rng.bytes(len);
        if len > 4 && lab.rng.one_in(2) {
            bytes[..2].copy_from_slice(b"IN");
            bytes[4] = lab.rng.below(4) as u8;
        }
        lab.inode_test(&bytes);
    }
}

#[test]
fn hashes() {
    let mut lab = Lab::new(0x4a54);
    for len in 0..600 {
        let bytes = lab.rng.bytes(len);
        lab.hash(&bytes);
    }
    for byte in 0..=255 {
        lab.hash(&[byte]);
        lab.hash(&[byte; 255]);
    }
    for _ in 0..rounds(10_000) {
        let len = lab.rng.below(40);
        let bytes = lab.rng.bytes(len);
        lab.hash(&bytes);
    }
    println!("{} calls", lab.cover.calls());
    lab.cover.require("hash", &[], &[], &[]);
}
