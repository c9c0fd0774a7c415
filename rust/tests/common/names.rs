//! Names, legal and not, and names that collide in the hash by construction.

use super::{Rng, V4};
use pelunziwa::model;

/// A legal directory name of this length; any byte but 0 and "/".
pub fn of_len(rng: &mut Rng, len: usize) -> Vec<u8> {
    let plain = rng.one_in(2);
    let mut byte = || loop {
        let byte = if plain {
            b'a' + rng.byte() % 26
        } else {
            rng.byte()
        };
        if byte != 0 && byte != b'/' {
            return byte;
        }
    };
    loop {
        let name: Vec<u8> = (0..len).map(|_| byte()).collect();
        if !model::is_dot(&name) {
            return name;
        }
    }
}

/// Mostly short, some of any length, some of 255.
pub fn legal(rng: &mut Rng) -> Vec<u8> {
    let len = match rng.below(16) {
        0 => 255,
        1 => rng.between(100, 254),
        2..=4 => rng.between(20, 100),
        _ => rng.between(1, 24),
    };
    of_len(rng, len)
}

/// Other bytes with the same hash. A byte counts 7 bits higher than the next one, so its lowest bit and the
/// next one's highest bit cancel out.
pub fn twin_at(name: &[u8], at: usize) -> Vec<u8> {
    let mut other = name.to_vec();
    other[at] ^= 1;
    other[at + 1] ^= 0x80;
    assert_eq!(model::hash(&other), model::hash(name));
    other
}

/// Another name with the same hash.
pub fn twin(rng: &mut Rng, name: &[u8]) -> Option<Vec<u8>> {
    if name.len() < 2 {
        return None;
    }
    let other = twin_at(name, rng.below(name.len() - 1));
    model::legal_name(V4, &other).then_some(other)
}

/// A name of another length with this hash: five more bytes of 7 bits each give any 32 bits.
pub fn with_hash(rng: &mut Rng, hash: u32) -> Vec<u8> {
    loop {
        let len = rng.between(1, 12);
        let mut name = of_len(rng, len);
        let rest = hash ^ model::hash(&name).rotate_left(35 % 32);
        let suffix = [28, 21, 14, 7, 0].map(|shift| (rest >> shift & 0x7f) as u8);
        name.extend(suffix);
        if model::legal_name(V4, &name) {
            assert_eq!(model::hash(&name), hash);
            return name;
        }
    }
}

/// A name that no directory call may take, or that is fixed.
pub fn odd(rng: &mut Rng) -> Vec<u8> {
    match rng.below(7) {
        0 => Vec::new(),
        1 => of_len(rng, 256),
        2 => spoiled(rng, 0),
        3 => spoiled(rng, b'/'),
        4 => b".".to_vec(),
        5 => b"..".to_vec(),
        _ => rng.pick(&[b"/".to_vec(), vec![0], vec![b'x'; 300], b"...".to_vec()]),
    }
}

/// A name with one byte put in.
pub fn spoiled(rng: &mut Rng, byte: u8) -> Vec<u8> {
    let mut name = legal(rng);
    let at = rng.below(name.len());
    name[at] = byte;
    name
}

/// A name to ask for: mostly one of `held`, or one with the hash of a held one, or a new one, or an odd one.
pub fn asked(rng: &mut Rng, held: &[Vec<u8>]) -> Vec<u8> {
    let choice = rng.below(20);
    if choice == 0 {
        return odd(rng);
    }
    if held.is_empty() || choice < 4 {
        return legal(rng);
    }
    let name = rng.pick(held);
    match choice {
        4..=6 => twin(rng, &name).unwrap_or_else(|| legal(rng)),
        7 => with_hash(rng, model::hash(&name)),
        _ => name,
    }
}

/// An inode number to ask for; rarely an illegal one, or the own number of a directory that stores it, or one a bit off that.
pub fn number(rng: &mut Rng, own: Option<u64>) -> u64 {
    match (rng.below(24), own) {
        (0, _) => rng.pick(&[0, 1 << 56, (1 << 56) + 5, u64::MAX, 1 << 63]),
        (1, _) => rng.pick(&[1, (1 << 56) - 1, 1 << 32, (1 << 32) - 1]),
        (2..=4, _) => legal_number(rng, true),
        (5, Some(own)) => own,
        (6, Some(own)) => own ^ 1 << rng.below(64),
        _ => legal_number(rng, false),
    }
}

/// A number that an entry of a block with this own number may bear.
pub fn entry_number(rng: &mut Rng, wide: bool, own: u64) -> u64 {
    loop {
        let number = legal_number(rng, wide);
        if number != own {
            return number;
        }
    }
}

pub fn legal_number(rng: &mut Rng, wide: bool) -> u64 {
    match wide {
        true => (rng.next() >> 8).max(1 << 32),
        false => (rng.next() >> 32).max(1),
    }
}
