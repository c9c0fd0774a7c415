//! What the tests share: a PRNG, guarded buffers, counts of what was reached, the calls held to the model,
//! and generators of structures.

#![allow(dead_code)]

pub mod build;
pub mod calls;
pub mod damage;
pub mod frame;
pub mod images;
pub mod names;

use pelunziwa::model::Options;
use std::collections::BTreeMap;
use std::env;

/// The options that the library's calls, which take none, are held to.
pub const V4: &Options = &Options::V4;

/// The default number of rounds, times PELUNZIWA_ROUNDS.
pub fn rounds(default: usize) -> usize {
    let factor = match env::var("PELUNZIWA_ROUNDS") {
        Ok(text) => text.parse().expect("PELUNZIWA_ROUNDS is a number"),
        Err(_) => 1,
    };
    default * factor
}

/// splitmix64: the same numbers in every run.
pub struct Rng(u64);

impl Rng {
    pub fn new(seed: u64) -> Rng {
        Rng(seed)
    }

    pub fn next(&mut self) -> u64 {
        self.0 = self.0.wrapping_add(0x9e37_79b9_7f4a_7c15);
        let mut z = self.0;
        z = (z ^ (z >> 30)).wrapping_mul(0xbf58_476d_1ce4_e5b9);
        z = (z ^ (z >> 27)).wrapping_mul(0x94d0_49bb_1331_11eb);
        z ^ (z >> 31)
    }

    /// A number under `limit`, which is not 0.
    pub fn below(&mut self, limit: usize) -> usize {
        (self.next() % limit as u64) as usize
    }

    pub fn between(&mut self, low: usize, high: usize) -> usize {
        low + self.below(high - low + 1)
    }

    pub fn one_in(&mut self, n: usize) -> bool {
        self.below(n) == 0
    }

    pub fn byte(&mut self) -> u8 {
        self.next() as u8
    }

    pub fn bytes(&mut self, len: usize) -> Vec<u8> {
        (0..len).map(|_| self.byte()).collect()
    }

    pub fn pick<T: Clone>(&mut self, among: &[T]) -> T {
        among[self.below(among.len())].clone()
    }
}

/// Bytes that are lent to a call, inside a larger run of random guard bytes.
pub struct Guarded {
    all: Vec<u8>,
    before: Vec<u8>,
    start: usize,
    len: usize,
}

impl Guarded {
    pub fn new(rng: &mut Rng, lent: &[u8]) -> Guarded {
        // An uneven start, so that no call can count on alignment.
        let start = rng.between(16, 40);
        let mut all = rng.bytes(start);
        all.extend(lent);
        all.extend(rng.bytes(24));
        Guarded {
            before: all.clone(),
            all,
            start,
            len: lent.len(),
        }
    }

    pub fn len(&self) -> usize {
        self.len
    }

    pub fn ptr(&self) -> *const u8 {
        self.all[self.start..].as_ptr()
    }

    pub fn mut_ptr(&mut self) -> *mut u8 {
        self.all[self.start..].as_mut_ptr()
    }

    /// The first place, counted in the lent bytes, where what stands there is not as wanted; guards keep
    /// what they had.
    pub fn differs(&self, wanted: &[u8]) -> Option<isize> {
        let mut want = self.before.clone();
        want[self.start..self.start + self.len].copy_from_slice(wanted);
        let at = (0..want.len()).find(|&at| want[at] != self.all[at])?;
        Some(at as isize - self.start as isize)
    }
}

/// Counts of what the tests reached, by call.
#[derive(Default)]
pub struct Cover {
    counts: BTreeMap<(String, String), u64>,
}

impl Cover {
    pub fn note(&mut self, call: &str, what: &str) {
        let key = (call.to_string(), what.to_string());
        *self.counts.entry(key).or_default() += 1;
    }

    /// A refusal's number, or done.
    pub fn answer(&mut self, call: &str, refusal: u32) {
        match refusal {
            0 => self.note(call, "done"),
            _ => self.note(call, &format!("refused {refusal:02}")),
        }
    }

    pub fn calls(&self) -> u64 {
        let answers = self.counts.iter();
        let answers =
            answers.filter(|((_, what), _)| what == "done" || what.starts_with("refused"));
        answers.map(|(_, count)| count).sum()
    }

    /// Prints the counts; fails if something that `call` can reach was not reached: the refusals of its structure's tests, `more`
    /// of its own, done, and the notes.
    pub fn require(&self, call: &str, tests: &[u32], more: &[u32], notes: &[&str]) {
        let refusals = [tests, more].concat();
        let mut wanted: Vec<String> = refusals.iter().map(|n| format!("refused {n:02}")).collect();
        wanted.push("done".to_string());
        wanted.extend(notes.iter().map(|note| note.to_string()));
        let mine = self.counts.iter().filter(|((name, _), _)| name == call);
        let line: Vec<String> = mine.map(|((_, what), n)| format!("{what}: {n}")).collect();
        println!("{call}: {}", line.join(", "));
        let count = |what: &String| self.counts.get(&(call.to_string(), what.clone()));
        let missing: Vec<String> = wanted.into_iter().filter(|w| count(w).is_none()).collect();
        assert!(missing.is_empty(), "{call} never reached: {missing:?}");
        let known: Vec<String> = refusals.iter().map(|n| format!("refused {n:02}")).collect();
        let other = self.counts.keys().find(|(name, what)| {
            name == call && what.starts_with("refused") && !known.contains(what)
        });
        assert!(other.is_none(), "{call} cannot give {other:?}");
    }
}

/// Bytes as hex, for messages.
pub fn hex(bytes: &[u8]) -> String {
    bytes.iter().map(|byte| format!("{byte:02x}")).collect()
}
