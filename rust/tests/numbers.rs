//! The paper's own numbers and the dumps of its sources, given by the model alone and by the library.

use pelunziwa::model::{self, Options};

/// The calls that the numbers need; 0 or the refusal's number, and the tag under a name that is found.
struct Calls {
    hash: fn(&[u8]) -> u32,
    block_tag: fn(&[u8], &[u8]) -> Option<u64>,
    block_insert: fn(&mut Vec<u8>, &[u8], u64) -> u32,
    block_remove: fn(&mut Vec<u8>, &[u8]) -> u32,
    sfdir_test: fn(&[u8]) -> u32,
    sfdir_tag: fn(&[u8], &[u8]) -> Option<u64>,
    sfdir_insert: fn(&mut Vec<u8>, &[u8], u64) -> u32,
    sfdir_remove: fn(&mut Vec<u8>, &[u8]) -> u32,
    attr_test: fn(&[u8]) -> u32,
    attr_set: fn(&mut Vec<u8>, &[u8], u32, &[u8]) -> u32,
}

const BLOCK_SIZE: u64 = 4096;
const V4: &Options = &Options::V4;

fn kept(bytes: &mut Vec<u8>, change: model::Change) -> u32 {
    *bytes = change.bytes;
    change.refusal
}

fn tag(found: model::Found) -> Option<u64> {
    (found.refusal == 0).then_some(found.tag)
}

const MODEL: Calls = Calls {
    hash: model::hash,
    block_tag: |block, name| tag(model::block::lookup(V4, block, name)),
    block_insert: |block, name, number| {
        let change = model::block::insert(V4, block, name, number);
        kept(block, change)
    },
    block_remove: |block, name| {
        let change = model::block::remove(V4, block, name);
        kept(block, change)
    },
    sfdir_test: |inode| model::sfdir::test(V4, inode, BLOCK_SIZE),
    sfdir_tag: |inode, name| tag(model::sfdir::lookup(V4, inode, BLOCK_SIZE, name)),
    sfdir_insert: |inode, name, number| {
        let change = model::sfdir::insert(V4, inode, BLOCK_SIZE, name, number);
        kept(inode, change)
    },
    sfdir_remove: |inode, name| {
        let change = model::sfdir::remove(V4, inode, BLOCK_SIZE, name);
        kept(inode, change)
    },
    attr_test: |inode| model::attr::test(V4, inode),
    attr_set: |inode, name, flags, value| {
        let change = model::attr::set(V4, inode, name, flags, value);
        kept(inode, change)
    },
};

fn code(result: Result<(), pelunziwa::Refusal>) -> u32 {
    result.err().map_or(0, pelunziwa::Refusal::number)
}

const LIBRARY: Calls = Calls {
    hash: pelunziwa::hash,
    block_tag: |block, name| Some(pelunziwa::block::lookup(block, name).ok()?.tag),
    block_insert: |block, name, number| code(pelunziwa::block::insert(block, name, number)),
    block_remove: |block, name| code(pelunziwa::block::remove(block, name)),
    sfdir_test: |inode| code(pelunziwa::sfdir::test(inode, BLOCK_SIZE)),
    sfdir_tag: |inode, name| Some(pelunziwa::sfdir::lookup(inode, BLOCK_SIZE, name).ok()?.tag),
    sfdir_insert: |inode, name, number| {
        code(pelunziwa::sfdir::insert(inode, BLOCK_SIZE, name, number))
    },
    sfdir_remove: |inode, name| code(pelunziwa::sfdir::remove(inode, BLOCK_SIZE, name)),
    attr_test: |inode| code(pelunziwa::attr::test(inode)),
    attr_set: |inode, name, flags, value| code(pelunziwa::attr::set(inode, name, flags, value)),
};

fn both(check: fn(&Calls)) {
    check(&MODEL);
    check(&LIBRARY);
}

fn number(bytes: &[u8], place: usize, width: usize) -> u64 {
    let digits = bytes[place..place + width].iter();
    digits.fold(0, |number, &byte| 256 * number + u64::from(byte))
}

/// The best-gap table's pairs.
fn pairs(block: &[u8]) -> Vec<(u64, u64)> {
    let pair = |place| (number(block, place, 2), number(block, place + 2, 2));
    [4, 8, 12].map(pair).to_vec()
}

/// The tail: count and stale.
fn tail(block: &[u8]) -> (u64, u64) {
    let end = block.len();
    (number(block, end - 8, 4), number(block, end - 4, 4))
}

fn put(bytes: &mut [u8], place: usize, width: usize, number: u64) {
    bytes[place..place + width].copy_from_slice(&number.to_be_bytes()[8 - width..]);
}

/// A block of "." and ".." only, both 128, written out by hand.
fn c1(len: usize) -> Vec<u8> {
    let mut block = vec![0; len];
    block[..4].copy_from_slice(b"XD2B");
    for (offset, name) in [(16, "."), (32, "..")] {
        put(&mut block, offset, 8, 128);
        block[offset + 8] = name.len() as u8;
        block[offset + 9..offset + 9 + name.len()].copy_from_slice(name.as_bytes());
        put(&mut block, offset + 14, 2, offset as u64);
    }
    let gap = len - 24 - 48;
    for (place, number) in [(4, 48), (6, gap), (48, 0xffff), (50, gap), (46 + gap, 48)] {
        put(&mut block, place, 2, number as u64);
    }
    let fields = [0x2e, 2, 0x172e, 4, 2, 0];
    for (at, number) in fields.into_iter().enumerate() {
        put(&mut block, len - 24 + 4 * at, 4, number);
    }
    block
}

#[test]
fn hashes() {
    both(|calls| {
        let hash = |name: &str| (calls.hash)(name.as_bytes());
        assert_eq!(hash("."), 0x2e);
        assert_eq!(hash(".."), 0x172e);
        assert_eq!(hash("attr1"), 0x1e9d_3937);
        assert_eq!(hash("attr2"), 0x1e9d_3934);
        assert_eq!(hash("big_attr"), 0xfcf8_9d4f);
        assert_eq!(hash("attribute_267"), 0x3437_d1a8);
    });
}

#[test]
fn c1_to_c3() {
    both(|calls| {
        let mut block = c1(512);
        assert_eq!(pairs(&block), [(48, 440), (0, 0), (0, 0)]);
        assert_eq!((calls.block_insert)(&mut block, b"a", 131), 0);
        assert_eq!(number(&block, 48, 8), 131);
        assert_eq!(pairs(&block), [(64, 416), (0, 0), (0, 0)]);
        assert_eq!(tail(&block), (3, 0));
        let tag = |name: &str| (calls.block_tag)(&block, name.as_bytes());
        assert_eq!([".", "..", "a"].map(tag), [16, 32, 48].map(Some));
        assert_eq!(["b", "/"].map(tag), [None, None]);
        assert_eq!((calls.block_remove)(&mut block, b"a"), 0);
        assert_eq!(pairs(&block), [(48, 432), (0, 0), (0, 0)]);
        assert_eq!(tail(&block), (3, 1));
    });
}

#[test]
fn c4() {
    both(|calls| {
        let mut block = c1(512);
        assert_eq!((calls.block_insert)(&mut block, &[b'x'; 255], 131), 0);
        assert_eq!(pairs(&block)[0].1, 160);
        assert_eq!((calls.block_insert)(&mut block, &[b'y'; 142], 132), 15);
        assert_eq!((calls.block_insert)(&mut block, &[b'y'; 141], 132), 0);
    });
}

#[test]
fn c5() {
    both(|calls| {
        let mut block = c1(512);
        assert_eq!((calls.block_insert)(&mut block, &[b'x'; 255], 131), 0);
        assert_eq!((calls.block_insert)(&mut block, b"y", 132), 0);
        assert_eq!((calls.block_insert)(&mut block, &[b'z'; 117], 133), 0);
        assert_eq!(pairs(&block), [(0, 0); 3]);
        assert_eq!((calls.block_remove)(&mut block, b"y"), 0);
        assert_eq!((calls.block_remove)(&mut block, &[b'z'; 117]), 0);
        assert_eq!(pairs(&block)[0].1, 144);
        assert_eq!(tail(&block).1, 2);
        let room = |len: usize| model::block::read(V4, &block).unwrap().room(V4, len);
        assert_eq!(room(141), Some(model::block::Room::B));
        assert_eq!(room(142), None);
        assert_eq!((calls.block_insert)(&mut block, &[b'w'; 142], 134), 15);
        assert_eq!((calls.block_insert)(&mut block, &[b'w'; 141], 134), 0);
    });
}

/// Names of the shortest entries go in until there is no room: 20 live entries in 512 bytes, 169 in 4,096, 2,729 in 65,536.
#[test]
fn c6() {
    both(|calls| {
        for (len, most) in [(512, 20), (4096, 169), (65_536, 2729)] {
            let mut block = c1(len);
            let mut live = 2;
            while (calls.block_insert)(&mut block, format!("n{live}").as_bytes(), 131) == 0 {
                live += 1;
            }
            assert_eq!(live, most);
            assert_eq!((calls.block_insert)(&mut block, b"?", 131), 15);
        }
    });
}

/// An inode's first rows as a dump of xfs_db shows them; the rest is zero.
fn inode(dump: &str) -> Vec<u8> {
    let digits = dump.split_whitespace();
    let byte = |text| u8::from_str_radix(text, 16).expect("hex");
    let mut bytes: Vec<u8> = digits.map(byte).collect();
    bytes.resize(256, 0);
    bytes
}

/// Directories (004): four entries.
const FOUR: &str = "
    49 4e 41 ed 01 01 00 02 00 00 00 00 00 00 00 00 00 00 00 02 00 00 00 00 00 00 00 00 00 00 00 02
    44 ad 3a 83 1d a9 4a d0 44 ad 3a ab 0b c7 a7 d0 44 ad 3a ab 0b c7 a7 d0 00 00 00 00 00 00 00 5e
    00 00 00 00 00 00 00 00 00 00 00 00 00 00 00 00 00 00 00 02 00 00 00 00 00 00 00 00 00 00 00 00
    ff ff ff ff 04 00 00 00 00 80 0f 00 30 66 72 61 6d 65 30 30 30 30 30 30 2e 74 73 74 01 80 00 81
    0f 00 50 66 72 61 6d 65 30 30 30 30 30 31 2e 74 73 74 01 80 00 82 0f 00 70 66 72 61 6d 65 30 30
    30 30 30 32 2e 74 73 74 01 80 00 83 0f 00 90 66 72 61 6d 65 30 30 30 30 30 33 2e 74 73 74 01 80
    00 84 00 00 00 00 00 00 00 00 00 00 00 00 00 00";

/// Directories (004): one of them removed, its bytes left over after the list.
const THREE: &str = "
    49 4e 41 ed 01 01 00 02 00 00 00 00 00 00 00 00 00 00 00 02 00 00 00 00 00 00 00 00 00 00 00 03
    44 b2 45 a2 09 fd e4 50 44 b2 45 a3 12 ee b5 d0 44 b2 45 a3 12 ee b5 d0 00 00 00 00 00 00 00 48
    00 00 00 00 00 00 00 00 00 00 00 00 00 00 00 00 00 00 00 02 00 00 00 00 00 00 00 00 00 00 00 00
    ff ff ff ff 03 00 00 00 00 80 0f 00 30 66 72 61 6d 65 30 30 30 30 30 30 2e 74 73 74 01 80 00 81
    0f 00 70 66 72 61 6d 65 30 30 30 30 30 32 2e 74 73 74 01 80 00 83 0f 00 90 66 72 61 6d 65 30 30
    30 30 30 33 2e 74 73 74 01 80 00 84 0f 00 90 66 72 61 6d 65 30 30 30 30 30 33 2e 74 73 74 01 80
    00 84 00 00 00 00 00 00 00 00 00 00 00 00 00 00";

/// Attributes (000): four of them, forkoff 10, an older value's end left over after the list.
const ATTRS: &str = "
    49 4e 81 a4 01 02 00 01 00 00 00 00 00 00 00 00 00 00 00 01 00 00 00 00 00 00 00 00 00 00 00 05
    44 be 24 cd 0f b0 96 18 44 be 24 cd 0f b0 96 18 44 be 2d f5 01 62 7a 18 00 00 00 00 00 00 00 04
    00 00 00 00 00 00 00 01 00 00 00 00 00 00 00 01 00 00 0a 01 00 00 00 00 00 00 00 00 00 00 00 00
    ff ff ff ff 00 00 00 00 00 00 00 00 00 00 00 01 41 c0 00 01 00 00 00 00 00 00 00 00 00 00 00 00
    00 00 00 00 00 00 00 00 00 00 00 00 00 00 00 00 00 00 00 00 00 00 00 00 00 00 00 00 00 00 00 00
    00 00 00 00 00 00 00 00 00 00 00 00 00 00 00 00 00 00 00 00 00 45 04 00 0a 00 00 65 6d 70 74 79
    5f 61 74 74 72 07 04 02 74 72 75 73 74 5f 61 76 61 6c 31 06 0c 00 73 65 63 6f 6e 64 73 65 63 6f
    6e 64 5f 76 61 6c 75 65 06 08 04 70 6f 6c 69 63 79 63 6f 6e 74 65 6e 74 73 64 5f 76 61 6c 75 65";

fn frame(at: u64) -> Vec<u8> {
    format!("frame00000{at}.tst").into_bytes()
}

/// The dumps are right, their tags as listed, and a removal leads from the one to the other.
#[test]
fn directory_dumps() {
    both(|calls| {
        let (mut four, three) = (inode(FOUR), inode(THREE));
        assert_eq!(number(&four, 56, 8), 94);
        assert_eq!((calls.sfdir_test)(&four), 0);
        assert_eq!((calls.sfdir_test)(&three), 0);
        let tags = |dir: &[u8]| [0, 1, 2, 3].map(|at| (calls.sfdir_tag)(dir, &frame(at)));
        assert_eq!(tags(&four), [0x30, 0x50, 0x70, 0x90].map(Some));
        assert_eq!(tags(&three), [Some(0x30), None, Some(0x70), Some(0x90)]);
        assert_eq!((calls.sfdir_tag)(&four, b".."), Some(0));
        assert_eq!((calls.sfdir_remove)(&mut four, &frame(1)), 0);
        assert_eq!(number(&four, 56, 8), 72);
        assert_eq!(four[100..172], three[100..172]);
        assert_eq!(four[172..], [0; 84]);
    });
}

/// An empty directory takes six such entries, not seven; after four it is the dump.
#[test]
fn six_not_seven() {
    both(|calls| {
        let mut dir = inode(FOUR);
        dir[100] = 0;
        put(&mut dir, 56, 8, 6);
        for at in 0..6 {
            assert_eq!(
                (calls.sfdir_insert)(&mut dir, &frame(at), 25_165_953 + at),
                0
            );
            if at == 3 {
                assert_eq!(dir, inode(FOUR));
            }
        }
        assert_eq!(number(&dir, 56, 8), 138);
        assert_eq!((calls.sfdir_insert)(&mut dir, &frame(6), 25_165_959), 15);
        // 160 bytes, where the fork has 156.
        assert_eq!(138 + 3 + 15 + 4, 160);
    });
}

#[test]
fn attribute_dump() {
    both(|calls| {
        let dump = inode(ATTRS);
        assert_eq!((calls.attr_test)(&dump), 0);
        assert_eq!(256 - 100 - 8 * number(&dump, 82, 1), 76);
        assert_eq!(number(&dump, 180, 2), 69);
        let mut full = dump.clone();
        assert_eq!((calls.attr_set)(&mut full, b"n", 0, b"1234"), 15);
        assert_eq!(full, dump);
        assert_eq!((calls.attr_set)(&mut full, b"n", 0, b"123"), 0);
        assert_eq!(number(&full, 180, 2), 76);
        assert_eq!(full[249..], *b"\x01\x03\x00n123");
    });
}
