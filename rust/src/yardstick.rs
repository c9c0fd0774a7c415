//! The yardstick: an ordinary Rust checker of a block's rules, for timing; the tests hold it to the model. One pass over the slots, one over the records, which reads
//! each name once, four bytes a turn; an entry's slot is found by binary search, and names are compared only where hashes are equal.

use crate::model::Options;
use crate::Found;

/// A constant, so that the sizes cost no time.
const V4: Options = Options::V4;
const HEADER: usize = V4.header;
const TAIL: usize = 8;
const GAP: u16 = 0xffff;

fn be16(b: &[u8], at: usize) -> u16 {
    u16::from_be_bytes(b[at..at + 2].try_into().unwrap())
}

fn be32(b: &[u8], at: usize) -> u32 {
    u32::from_be_bytes(b[at..at + 4].try_into().unwrap())
}

fn be64(b: &[u8], at: usize) -> u64 {
    u64::from_be_bytes(b[at..at + 8].try_into().unwrap())
}

/// The hash of a name, byte by byte.
pub fn hash(name: &[u8]) -> u32 {
    name.iter()
        .fold(0, |h: u32, &byte| h.rotate_left(7) ^ u32::from(byte))
}

/// A hash, four bytes further.
fn turned(h: u32, four: &[u8; 4]) -> u32 {
    let [a, b, c, d] = four.map(u32::from);
    h.rotate_left(28) ^ a << 21 ^ b << 14 ^ c << 7 ^ d
}

/// A hash, with the last bytes, which make no four.
fn ended(h: u32, rest: &[u8]) -> u32 {
    match *rest {
        [a, b, c] => h.rotate_left(21) ^ u32::from(a) << 14 ^ u32::from(b) << 7 ^ u32::from(c),
        [a, b] => h.rotate_left(14) ^ u32::from(a) << 7 ^ u32::from(b),
        [a] => h.rotate_left(7) ^ u32::from(a),
        _ => h,
    }
}

/// The same hash four bytes a turn, as in the kernel: the bytes that make no four come last.
pub fn hash_by_fours(name: &[u8]) -> u32 {
    let (fours, rest) = name.as_chunks();
    ended(fours.iter().fold(0, turned), rest)
}

/// Not 0 exactly if one of the four bytes is 0.
fn zeros(four: u32) -> u32 {
    four.wrapping_sub(0x0101_0101) & !four & 0x8080_8080
}

/// Whether a name's bytes are legal, and its hash, four bytes a turn.
fn checked(name: &[u8]) -> (bool, u32) {
    let (fours, rest) = name.as_chunks();
    let mut bad = 0;
    let mut hash = 0;
    for four in fours {
        let word = u32::from_ne_bytes(*four);
        bad |= zeros(word) | zeros(word ^ 0x2f2f_2f2f);
        hash = turned(hash, four);
    }
    let clear = bad == 0 && rest.iter().all(|&c| c != 0 && c != b'/');
    (clear, ended(hash, rest))
}

fn entry_size(namelen: usize) -> usize {
    (11 + V4.ftype + namelen).next_multiple_of(8)
}

struct Slot {
    hash: u32,
    address: u32,
}

/// The slots of the index, where they lie in the block.
#[derive(Clone, Copy)]
struct Index<'a>(&'a [[u8; 8]]);

impl Index<'_> {
    fn slot(&self, i: usize) -> Slot {
        let s = &self.0[i];
        Slot {
            hash: be32(s, 0),
            address: be32(s, 4),
        }
    }

    /// The first slot whose hash is at least this one.
    fn first(&self, hash: u32) -> usize {
        self.0.partition_point(|s| be32(s, 0) < hash)
    }

    fn holds(&self, hash: u32, address: u32) -> bool {
        let from = self.first(hash);
        self.0[from..]
            .iter()
            .take_while(|s| be32(*s, 0) == hash)
            .any(|s| be32(s, 4) == address)
    }

    /// Hashes never fall, and stale slots number the tail's.
    fn ordered(&self, stale: usize) -> bool {
        let mut last = 0;
        let mut zero = 0;
        for s in self.0 {
            let hash = be32(s, 0);
            if hash < last {
                return false;
            }
            last = hash;
            zero += usize::from(be32(s, 4) == 0);
        }
        zero == stale
    }
}

/// What one pass over the records finds: the lowest of NAME, NUMBER and INDEX that an entry breaks, or 9; and the gaps.
struct Records {
    worst: u32,
    entries: usize,
    fixed: usize,
    longest: [u16; 3],
    gaps: usize,
    named: usize,
}

struct Block<'a> {
    bytes: &'a [u8],
    index: Index<'a>,
    end: usize,
    stale: usize,
    pairs: [(u16, u16); 3],
    /// The directory's own number, if "." stands where it has to.
    own: u64,
}

impl<'a> Block<'a> {
    fn open(b: &'a [u8]) -> Result<Self, u32> {
        if !b.len().is_power_of_two() || !(512..=V4.largest_block).contains(&(b.len() as u64)) {
            return Err(1);
        }
        if be32(b, 0) != V4.magic {
            return Err(2);
        }
        let tail = b.len() - TAIL;
        let (count, stale) = (be32(b, tail) as usize, be32(b, tail + 4) as usize);
        if HEADER + 8 * count + TAIL > b.len() || stale > count {
            return Err(4);
        }
        let end = tail - 8 * count;
        let pair = |i: usize| {
            let at = V4.best_gaps + 4 * i;
            (be16(b, at), be16(b, at + 2))
        };
        Ok(Block {
            bytes: b,
            index: Index(b[end..tail].as_chunks().0),
            end,
            stale,
            pairs: [pair(0), pair(1), pair(2)],
            own: be64(b, HEADER),
        })
    }

    /// TILE, with what the records say on the way.
    fn records(&self) -> Option<Records> {
        let b = &self.bytes[..self.end];
        let mut r = Records {
            worst: 9,
            entries: 0,
            fixed: 0,
            longest: [0; 3],
            gaps: 0,
            named: 0,
        };
        let mut at = HEADER;
        let mut after_gap = false;
        while at < b.len() {
            if b.len() - at < 8 {
                return None;
            }
            let gap = be16(b, at) == GAP;
            let size = if gap {
                be16(b, at + 2) as usize
            } else {
                entry_size(*b.get(at + 8)? as usize)
            };
            if size < 8
                || size % 8 != 0
                || size > b.len() - at
                || (gap && after_gap)
                || be16(b, at + size - 2) as usize != at
            {
                return None;
            }
            if gap {
                r.gap(at as u16, size as u16, &self.pairs);
            } else {
                let fault = self.fault(at);
                r.worst = r.worst.min(fault);
                r.entries += 1;
                r.fixed += usize::from(at == HEADER || at == HEADER + 16);
            }
            after_gap = gap;
            at += size;
        }
        Some(r)
    }

    /// The first of NAME, NUMBER and INDEX that the entry breaks, or 9.
    fn fault(&self, at: usize) -> u32 {
        let b = &self.bytes[..self.end];
        let name = &b[at + 9..at + 9 + b[at + 8] as usize];
        let place = match name {
            b"." => at == HEADER,
            b".." => at == HEADER + 16,
            _ => at != HEADER && at != HEADER + 16,
        };
        let (clear, hash) = checked(name);
        if !place || name.is_empty() || !clear {
            return 6;
        }
        let number = be64(b, at);
        let inside_itself = number == self.own && at > HEADER + 16;
        if number == 0 || number >> 56 != 0 || inside_itself {
            return 7;
        }
        if !self.index.holds(hash, (at / 8) as u32) {
            return 8;
        }
        9
    }

    fn best(&self, r: &Records) -> bool {
        let known = r.gaps.min(3);
        let lengths = self.pairs.iter().zip(r.longest).all(|(p, n)| p.1 == n);
        let unused = self.pairs[known..].iter().all(|p| *p == (0, 0));
        lengths && unused && r.named == known
    }

    fn name_at(&self, address: u32) -> &[u8] {
        let at = 8 * address as usize;
        &self.bytes[at + 9..at + 9 + self.bytes[at + 8] as usize]
    }

    /// TWICE: two entries of one name have equal hashes.
    fn twice(&self) -> bool {
        let slots = self.index.0;
        (0..slots.len()).any(|i| {
            let one = self.index.slot(i);
            one.address != 0
                && (i + 1..slots.len())
                    .map(|j| self.index.slot(j))
                    .take_while(|s| s.hash == one.hash)
                    .any(|s| s.address != 0 && self.name_at(s.address) == self.name_at(one.address))
        })
    }

    fn code(&self) -> u32 {
        let ordered = self.index.ordered(self.stale);
        let Some(r) = self.records() else { return 5 };
        if r.worst == 6 || r.fixed != 2 {
            return 6;
        }
        if r.worst == 7 {
            return 7;
        }
        if r.worst == 8 || !ordered || r.entries != self.index.0.len() - self.stale {
            return 8;
        }
        if !self.best(&r) {
            return 9;
        }
        if self.twice() {
            return 10;
        }
        0
    }
}

impl Records {
    fn gap(&mut self, at: u16, size: u16, pairs: &[(u16, u16); 3]) {
        self.gaps += 1;
        self.named += usize::from(pairs.contains(&(at, size)));
        if size > self.longest[2] {
            self.longest[2] = size;
            self.longest.sort_unstable_by(|a, b| b.cmp(a));
        }
    }
}

/// Tests a block: 0, or the number of the first rule that fails.
pub fn test(b: &[u8]) -> u32 {
    match Block::open(b) {
        Ok(block) => block.code(),
        Err(n) => n,
    }
}

/// Tests a block and looks a name up: its number, tag and the names compared, or the refusal.
pub fn lookup(b: &[u8], name: &[u8]) -> Result<Found, (u32, u64)> {
    let block = Block::open(b).map_err(|n| (n, 0))?;
    match block.code() {
        0 => (),
        n => return Err((n, 0)),
    }
    let (clear, wanted) = checked(name);
    if !(1..=255).contains(&name.len()) || !clear {
        return Err((11, 0));
    }
    let mut compared = 0;
    for i in block.index.first(wanted)..block.index.0.len() {
        let s = block.index.slot(i);
        if s.hash != wanted {
            break;
        }
        if s.address == 0 {
            continue;
        }
        compared += 1;
        if block.name_at(s.address) == name {
            let tag = 8 * s.address as usize;
            return Ok(Found {
                number: be64(b, tag),
                tag: tag as u64,
                compared,
            });
        }
    }
    Err((13, compared))
}

/// The bare walk over a good block's records, which any test of them has to make: how many there are. No rule is tested.
pub fn bare_walk(b: &[u8]) -> usize {
    let Ok(block) = Block::open(b) else { return 0 };
    let mut at = HEADER;
    let mut records = 0;
    while at < block.end {
        at += if be16(b, at) == GAP {
            be16(b, at + 2) as usize
        } else {
            entry_size(b[at + 8] as usize)
        };
        records += 1;
    }
    records
}
