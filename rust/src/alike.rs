//! Names made to fall together, for blocks that are slow to test unless that is minded: in the published hash, and in the library's second
//! hash as well (`key-of`, crates/name_words/specs/Words.antt), by which it tells names of one hash apart.

use crate::yardstick::hash;

/// A name of 12 bytes; all of them have one hash. A byte's lowest bit and the highest of the byte behind it fall on the same bit of the
/// hash: each of the 11 lowest bits of `toggles` turns such a pair over.
pub fn in_hash(toggles: u32) -> Vec<u8> {
    let mut name = b"bdfhjlnprtvx".to_vec();
    for i in (0..11).filter(|i| toggles >> i & 1 == 1) {
        name[i] ^= 1;
        name[i + 1] ^= 0x80;
    }
    name
}

/// The second hash with a word more.
fn mix(key: u64, word: u64) -> u64 {
    let x = key ^ word;
    (x % (1 << 32) * 2_654_435_761) ^ (x >> 32)
}

/// The second hash of a name, which has a byte at least.
pub fn key(name: &[u8]) -> u32 {
    let words = name.chunks(8).map(|bytes| {
        let mut word = [0; 8];
        word[8 - bytes.len()..].copy_from_slice(bytes);
        u64::from_le_bytes(word)
    });
    let key = words.fold(name.len() as u64, mix);
    (mix(key, key >> 32) >> 17) as u32
}

/// What each half of a name leaves in the key before it is mixed for the last time.
const LEFT: u64 = u64::from_le_bytes(*b"AbCdEfGh");

/// Half of a name, whose first six letters are free, behind the key `before`: its second word is such that the key is the same for every
/// choice of them. None if that would need a byte that no name has.
fn half(before: u64, choice: u32) -> Option<[u8; 16]> {
    let mut half = *b"......-+........";
    for (i, letter) in half[..6].iter_mut().enumerate() {
        *letter = b'a' + (choice >> (4 * i) & 15) as u8;
    }
    let first = u64::from_le_bytes(half[..8].try_into().expect("eight bytes"));
    let second = LEFT ^ mix(before, first);
    half[8..].copy_from_slice(&second.to_le_bytes());
    half.iter()
        .all(|&byte| byte != 0 && byte != b'/')
        .then_some(half)
}

/// So many names of 32 bytes that have one hash and one key. All first halves lead to one key, and all second halves from there to one
/// key; of the pairs of them, those with one hash are found by sorting the first halves by what theirs is in front of 16 bytes.
pub fn in_both(count: usize) -> Vec<Vec<u8>> {
    const CHOICES: u32 = 1 << 22;
    const ONE_HASH: u32 = 0x5a5a_5a5a;
    let mut firsts: Vec<_> = (0..CHOICES)
        .filter_map(|choice| half(32, choice))
        .map(|first| (hash(&first).rotate_left(7 * 16 % 32), first))
        .collect();
    firsts.sort_unstable();
    let seconds = (0..CHOICES).filter_map(|choice| half(mix(LEFT, 0), choice));
    let names = seconds.flat_map(|second| {
        let rest = ONE_HASH ^ hash(&second);
        let from = firsts.partition_point(|first| first.0 < rest);
        let fitting = firsts[from..]
            .iter()
            .take_while(move |first| first.0 == rest);
        fitting.map(move |(_, first)| [*first, second].concat())
    });
    names.take(count).collect()
}
