//! The block directory.

use super::*;
use std::collections::{BTreeMap, BTreeSet};

/// What a gap's first two bytes say; no legal inode number starts so.
const GAP_MARK: u64 = 0xffff;

#[derive(Clone, Debug, PartialEq, Eq)]
pub enum Record {
    Live {
        offset: usize,
        len: usize,
        number: u64,
        name: Vec<u8>,
    },
    Gap {
        offset: usize,
        len: usize,
    },
}

impl Record {
    fn offset(&self) -> usize {
        match self {
            Record::Live { offset, .. } | Record::Gap { offset, .. } => *offset,
        }
    }

    fn len(&self) -> usize {
        match self {
            Record::Live { len, .. } | Record::Gap { len, .. } => *len,
        }
    }

    fn end(&self) -> usize {
        self.offset() + self.len()
    }

    fn is_gap(&self) -> bool {
        matches!(self, Record::Gap { .. })
    }
}

/// An index slot; the one with address 0 is stale.
#[derive(Clone, Copy, Debug, PartialEq, Eq)]
pub struct Slot {
    pub hash: u32,
    pub address: u32,
}

impl Slot {
    fn is_stale(&self) -> bool {
        self.address == 0
    }
}

/// A block taken apart.
#[derive(Clone, Debug)]
pub struct Block {
    pub len: usize,
    pub pairs: Vec<(usize, usize)>,
    pub records: Vec<Record>,
    pub slots: Vec<Slot>,
    pub stale: usize,
}

/// Which case of the room rule is used.
#[derive(Clone, Copy, Debug, PartialEq, Eq)]
pub enum Room {
    A,
    B,
    C,
    D,
}

/// Tests 1 to 10.
pub fn read(options: &Options, bytes: &[u8]) -> Result<Block, u32> {
    let block = tile(options, bytes)?;
    want(block.names_right(options), NAME)?;
    want(block.numbers_right(), NUMBER)?;
    want(block.index_right(options), INDEX)?;
    want(block.best_right(), BEST)?;
    let names = block.live().map(|(_, _, name)| name);
    want(all_differ(options, names), TWICE)?;
    Ok(block)
}

/// Tests 1 to 5.
fn tile(options: &Options, bytes: &[u8]) -> Result<Block, u32> {
    want(legal_block_size(options, bytes.len() as u64), SIZE)?;
    want(field(bytes, 0, 4) == u64::from(options.magic), MAGIC)?;
    let tail = bytes.len() - 8;
    let count = field(bytes, tail, 4);
    let stale = field(bytes, tail + 4, 4);
    let least = options.header as u64 + 8 * count + 8;
    want(least <= bytes.len() as u64, SPAN)?;
    want(stale <= count, SPAN)?;

    let first_slot = tail - 8 * count as usize;
    let slot = |place: usize| Slot {
        hash: field(bytes, place, 4) as u32,
        address: field(bytes, place + 4, 4) as u32,
    };
    let pair = |rank: usize| {
        let place = pair_place(options, rank);
        let number = |place: usize| field(bytes, place, 2) as usize;
        (number(place), number(place + 2))
    };
    Ok(Block {
        len: bytes.len(),
        pairs: (0..3).map(pair).collect(),
        records: records(options, bytes, first_slot)?,
        slots: (first_slot..tail).step_by(8).map(slot).collect(),
        stale: stale as usize,
    })
}

/// The records when they fill the data exactly.
fn records(options: &Options, bytes: &[u8], data_end: usize) -> Result<Vec<Record>, u32> {
    let mut records: Vec<Record> = Vec::new();
    let mut place = options.header;
    while place < data_end {
        let record = record_at(options, bytes, place, data_end)?;
        let touches = record.is_gap() && records.last().is_some_and(Record::is_gap);
        want(!touches, TILE)?;
        place = record.end();
        records.push(record);
    }
    Ok(records)
}

fn record_at(
    options: &Options,
    bytes: &[u8],
    offset: usize,
    data_end: usize,
) -> Result<Record, u32> {
    let record = if field(bytes, offset, 2) == GAP_MARK {
        let len = field(bytes, offset + 2, 2) as usize;
        want(len % 8 == 0 && len >= 8, TILE)?;
        Record::Gap { offset, len }
    } else {
        // Even the shortest entry has its name's length in the data.
        want(offset + entry_size(options, 0) <= data_end, TILE)?;
        let name_len = field(bytes, offset + 8, 1) as usize;
        let len = entry_size(options, name_len);
        want(offset + len <= data_end, TILE)?;
        Record::Live {
            offset,
            len,
            number: field(bytes, offset, 8),
            name: bytes[offset + 9..offset + 9 + name_len].to_vec(),
        }
    };
    want(record.end() <= data_end, TILE)?;
    let tag = field(bytes, record.end() - 2, 2);
    want(tag == offset as u64, TILE)?;
    Ok(record)
}

impl Block {
    /// Offset, inode number and name of each live entry.
    pub fn live(&self) -> impl Iterator<Item = (usize, u64, &[u8])> {
        self.records.iter().filter_map(|record| match record {
            Record::Live {
                offset,
                number,
                name,
                ..
            } => Some((*offset, *number, &name[..])),
            Record::Gap { .. } => None,
        })
    }

    /// Offset and length of each gap.
    pub fn gaps(&self) -> Vec<(usize, usize)> {
        let gaps = self.records.iter().filter(|record| record.is_gap());
        gaps.map(|gap| (gap.offset(), gap.len())).collect()
    }

    /// Where the first slot stands.
    pub fn data_end(&self) -> usize {
        self.len - 8 - 8 * self.slots.len()
    }

    /// "." sits at the data's start and ".." after it, nowhere else, and every name is legal.
    fn names_right(&self, options: &Options) -> bool {
        let at = |wanted: &[u8]| -> Vec<usize> {
            let named = self.live().filter(|(_, _, name)| *name == wanted);
            named.map(|(offset, _, _)| offset).collect()
        };
        let legal = self.live().all(|(_, _, name)| legal_name(options, name));
        let second = options.header + entry_size(options, 1);
        legal && at(b".") == [options.header] && at(b"..") == [second]
    }

    /// The directory's own number: that of ".", which NAME has found.
    fn own_number(&self) -> u64 {
        let dot = self.live().find(|(_, _, name)| *name == b".");
        dot.expect("NAME wants \".\"").1
    }

    /// A number for an entry but "." and "..": no directory is inside itself.
    fn may_bear(&self, number: u64) -> bool {
        legal_number(number) && number != self.own_number()
    }

    /// ".." may bear the own number, as in a root.
    fn numbers_right(&self) -> bool {
        self.live().all(|(_, number, name)| match is_dot(name) {
            true => legal_number(number),
            false => self.may_bear(number),
        })
    }

    fn index_right(&self, options: &Options) -> bool {
        let rising = self.slots.windows(2).all(|two| two[0].hash <= two[1].hash);
        let stale = self.slots.iter().filter(|slot| slot.is_stale()).count();
        // Each live entry wants one slot; taking wanted ones out leaves none when each has exactly one.
        let mut wanted: BTreeMap<u32, u32> = self
            .live()
            .map(|(offset, _, name)| (offset as u32 / 8, name_hash(options, name)))
            .collect();
        let mut live = self.slots.iter().filter(|slot| !slot.is_stale());
        let known = live.all(|slot| wanted.remove(&slot.address) == Some(slot.hash));
        rising && stale == self.stale && known && wanted.is_empty()
    }

    /// The pairs are distinct gaps and the longest, longest first; unneeded pairs are zero.
    fn best_right(&self) -> bool {
        let gaps = self.gaps();
        let (used, unneeded) = self.pairs.split_at(gaps.len().min(3));
        let lengths: Vec<usize> = used.iter().map(|pair| pair.1).collect();
        let longest: Vec<usize> = best_pairs(&gaps)
            .iter()
            .take(used.len())
            .map(|pair| pair.1)
            .collect();
        let distinct: BTreeSet<&(usize, usize)> = used.iter().collect();
        let real = used.iter().all(|pair| gaps.contains(pair));
        let zero = unneeded.iter().all(|pair| *pair == (0, 0));
        lengths == longest && distinct.len() == used.len() && real && zero
    }

    /// The live slots with the name's hash, in slot order.
    fn candidates(&self, options: &Options, name: &[u8]) -> Vec<Slot> {
        let hash = name_hash(options, name);
        let same = |slot: &&Slot| !slot.is_stale() && slot.hash == hash;
        self.slots.iter().filter(same).copied().collect()
    }

    /// The record of a name.
    fn position(&self, options: &Options, wanted: &[u8]) -> Option<usize> {
        let is = |record: &Record| match record {
            Record::Live { name, .. } => same_name(options, name, wanted),
            Record::Gap { .. } => false,
        };
        self.records.iter().position(is)
    }

    /// The length of T, the gap touching the slots.
    fn slot_gap(&self) -> usize {
        match self.records.last() {
            Some(Record::Gap { len, .. }) => *len,
            _ => 0,
        }
    }

    /// The first case of the room rule that holds.
    pub fn room(&self, options: &Options, name_len: usize) -> Option<Room> {
        let need = entry_size(options, name_len);
        let slot_gap = self.slot_gap();
        let some_stale = self.stale >= 1;
        let fits = |gap: &(usize, usize)| gap.1 >= need;
        let not_at_slots = |gap: &(usize, usize)| gap.0 + gap.1 != self.data_end();
        let gaps = self.gaps();
        if some_stale && gaps.iter().any(fits) {
            Some(Room::A)
        } else if some_stale && slot_gap + 8 * (self.stale - 1) >= need {
            Some(Room::B)
        } else if !some_stale
            && slot_gap >= 8
            && gaps.iter().any(|gap| not_at_slots(gap) && fits(gap))
        {
            Some(Room::C)
        } else if !some_stale && slot_gap >= need + 8 {
            Some(Room::D)
        } else {
            None
        }
    }
}

/// Where a pair of the best-gap table stands.
fn pair_place(options: &Options, rank: usize) -> usize {
    options.best_gaps + 4 * rank
}

/// The three longest gaps, lower offset first among equals, zero where there is none.
fn best_pairs(gaps: &[(usize, usize)]) -> Vec<(usize, usize)> {
    let mut pairs = gaps.to_vec();
    pairs.sort_by_key(|&(offset, len)| (usize::MAX - len, offset));
    pairs.resize(pairs.len().max(3), (0, 0));
    pairs.truncate(3);
    pairs
}

pub fn test(options: &Options, bytes: &[u8]) -> u32 {
    code(read(options, bytes))
}

pub fn lookup(options: &Options, bytes: &[u8], name: &[u8]) -> Found {
    match seek(options, bytes, name) {
        Ok(found) => found,
        Err(refusal) => Found {
            refusal,
            ..Found::default()
        },
    }
}

fn seek(options: &Options, bytes: &[u8], wanted: &[u8]) -> Result<Found, u32> {
    let block = read(options, bytes)?;
    want(legal_name(options, wanted), ASKED)?;
    let mut compared = 0;
    for slot in block.candidates(options, wanted) {
        compared += 1;
        let offset = 8 * slot.address as usize;
        let same =
            |entry: &(usize, u64, &[u8])| entry.0 == offset && same_name(options, entry.2, wanted);
        if let Some((_, number, _)) = block.live().find(same) {
            return Ok(Found {
                number,
                tag: offset as u64,
                compared,
                ..Found::default()
            });
        }
    }
    Ok(Found {
        refusal: ABSENT,
        compared,
        ..Found::default()
    })
}

pub fn step(options: &Options, bytes: &[u8], place: u64) -> Step {
    walk(options, bytes, place).unwrap_or_else(|refusal| Step {
        refusal,
        ..Step::default()
    })
}

fn walk(options: &Options, bytes: &[u8], place: u64) -> Result<Step, u32> {
    let block = read(options, bytes)?;
    if place == block.data_end() as u64 {
        return Ok(Step {
            seen: END,
            next: place,
            ..Step::default()
        });
    }
    let mut records = block.records.iter();
    let record = records.find(|record| record.offset() as u64 == place);
    let record = record.ok_or(ASKED)?;
    let next = record.end() as u64;
    Ok(match record {
        Record::Gap { .. } => Step {
            seen: GAP,
            next,
            ..Step::default()
        },
        Record::Live {
            offset,
            number,
            name,
            ..
        } => Step {
            seen: LIVE,
            next,
            number: *number,
            tag: *offset as u64,
            name_start: *offset as u64 + 9,
            name_len: name.len() as u64,
            ..Step::default()
        },
    })
}

pub fn insert(options: &Options, bytes: &[u8], name: &[u8], number: u64) -> Change {
    let block = match insertable(options, bytes, name, number) {
        Ok(block) => block,
        Err(refusal) => return Change::refused(refusal, bytes),
    };
    let Some(room) = block.room(options, name.len()) else {
        return Change::no_room(bytes, "no room");
    };
    let (hash, need) = (name_hash(options, name), entry_size(options, name.len()));
    let notes = block.notes(room, hash);
    let mut after = block.clone();
    let hole = after.make_room(room, need);
    let (offset, len) = (after.records[hole].offset(), after.records[hole].len());
    let entry = Record::Live {
        offset,
        len: need,
        number,
        name: name.to_vec(),
    };
    let rest = Record::Gap {
        offset: entry.end(),
        len: len - need,
    };
    after.records.splice(hole..=hole, [entry, rest]);
    after.records.retain(|record| record.len() > 0);
    after.add_slot(hash, offset);
    Change {
        refusal: 0,
        bytes: after.write(options, bytes, Some(offset)),
        notes,
    }
}

/// Every test before that of room.
fn insertable(options: &Options, bytes: &[u8], name: &[u8], number: u64) -> Result<Block, u32> {
    let block = read(options, bytes)?;
    want(legal_name(options, name) && block.may_bear(number), ASKED)?;
    want(!is_dot(name), FIXED)?;
    want(block.position(options, name).is_none(), EXISTS)?;
    Ok(block)
}

impl Block {
    /// Which case is used, and whether it is one of those that are easy to get wrong.
    fn notes(&self, room: Room, hash: u32) -> Vec<&'static str> {
        let slot_gap = self.slot_gap();
        let mut notes = vec![match room {
            Room::A => "room (a)",
            Room::B if slot_gap == 0 => "room (b) without T",
            Room::B => "room (b)",
            Room::C if slot_gap == 8 => "room (c) uses T up",
            Room::C => "room (c)",
            Room::D => "room (d)",
        }];
        let equal = |slot: &&Slot| slot.hash == hash;
        if self
            .slots
            .iter()
            .any(|slot| equal(&slot) && slot.is_stale())
        {
            notes.push("beside an equal stale hash");
        }
        if self
            .slots
            .iter()
            .any(|slot| equal(&slot) && !slot.is_stale())
        {
            notes.push("beside an equal live hash");
        }
        notes
    }

    /// Drops stale slots or shortens T as the case says, and gives the gap (its record) that takes the entry.
    fn make_room(&mut self, room: Room, need: usize) -> usize {
        match room {
            Room::A => {
                let first = self.slots.iter().position(Slot::is_stale);
                self.slots.remove(first.expect("case (a) has a stale slot"));
                self.stale -= 1;
                self.longest_fitting(self.records.len(), need)
            }
            Room::B => {
                // The new slot takes one dropped slot's room, T grows over the others.
                self.grow_slot_gap(8 * (self.stale - 1));
                self.slots.retain(|slot| !slot.is_stale());
                self.stale = 0;
                self.records.len() - 1
            }
            Room::C => {
                let hole = self.longest_fitting(self.records.len() - 1, need);
                self.shrink_slot_gap();
                hole
            }
            Room::D => {
                self.shrink_slot_gap();
                self.records.len() - 1
            }
        }
    }

    /// The longest gap of at least `need` among the first `among` records, lowest offset on a tie.
    fn longest_fitting(&self, among: usize, need: usize) -> usize {
        let records = self.records[..among].iter().enumerate();
        let fitting = records.filter(|(_, record)| record.is_gap() && record.len() >= need);
        let longest = fitting.min_by_key(|(at, record)| (usize::MAX - record.len(), *at));
        longest.expect("the case has such a gap").0
    }

    /// T grows, or starts at the old end of the data.
    fn grow_slot_gap(&mut self, by: usize) {
        let data_end = self.data_end();
        match self.records.last_mut() {
            Some(Record::Gap { len, .. }) => *len += by,
            _ => self.records.push(Record::Gap {
                offset: data_end,
                len: by,
            }),
        }
    }

    /// 8 bytes off T's end; a T of length 0 is dropped by the caller, which also counts on its place.
    fn shrink_slot_gap(&mut self) {
        if let Some(Record::Gap { len, .. }) = self.records.last_mut() {
            *len -= 8;
        }
    }

    /// The new slot stands after all slots with an equal or lower hash.
    fn add_slot(&mut self, hash: u32, offset: usize) {
        let at = self.slots.iter().filter(|slot| slot.hash <= hash).count();
        let address = offset as u32 / 8;
        self.slots.insert(at, Slot { hash, address });
    }

    /// The block as bytes: gaps' fields, index, tail and pairs over what stood there, and the entry that is
    /// new at `fresh`. Entries never move, so the others stand already.
    fn write(&self, options: &Options, before: &[u8], fresh: Option<usize>) -> Vec<u8> {
        let mut bytes = before.to_vec();
        for record in &self.records {
            match record {
                Record::Gap { .. } => write_gap(&mut bytes, record),
                Record::Live { offset, .. } if Some(*offset) == fresh => {
                    write_entry(&mut bytes, record)
                }
                Record::Live { .. } => {}
            }
        }
        for (at, slot) in self.slots.iter().enumerate() {
            let place = self.data_end() + 8 * at;
            put(&mut bytes, place, 4, u64::from(slot.hash));
            put(&mut bytes, place + 4, 4, u64::from(slot.address));
        }
        put(&mut bytes, self.len - 8, 4, self.slots.len() as u64);
        put(&mut bytes, self.len - 4, 4, self.stale as u64);
        for (rank, (offset, len)) in best_pairs(&self.gaps()).into_iter().enumerate() {
            let place = pair_place(options, rank);
            put(&mut bytes, place, 2, offset as u64);
            put(&mut bytes, place + 2, 2, len as u64);
        }
        bytes
    }
}

/// A gap's three fields; its other bytes keep what stood there.
fn write_gap(bytes: &mut [u8], gap: &Record) {
    put(bytes, gap.offset(), 2, GAP_MARK);
    put(bytes, gap.offset() + 2, 2, gap.len() as u64);
    put(bytes, gap.end() - 2, 2, gap.offset() as u64);
}

fn write_entry(bytes: &mut [u8], entry: &Record) {
    let Record::Live {
        offset,
        number,
        name,
        ..
    } = entry
    else {
        return;
    };
    let name_end = offset + 9 + name.len();
    put(bytes, *offset, 8, *number);
    put(bytes, offset + 8, 1, name.len() as u64);
    bytes[offset + 9..name_end].copy_from_slice(name);
    bytes[name_end..entry.end() - 2].fill(0);
    put(bytes, entry.end() - 2, 2, *offset as u64);
}

pub fn remove(options: &Options, bytes: &[u8], name: &[u8]) -> Change {
    let (block, at) = match removable(options, bytes, name) {
        Ok(found) => found,
        Err(refusal) => return Change::refused(refusal, bytes),
    };
    let is_gap = |at: usize| block.records.get(at).is_some_and(Record::is_gap);
    let (left, right) = (is_gap(at - 1), is_gap(at + 1));
    let joined = at - usize::from(left)..at + 1 + usize::from(right);
    let parts = &block.records[joined.clone()];
    let gap = Record::Gap {
        offset: parts[0].offset(),
        len: parts.iter().map(Record::len).sum(),
    };
    let mut after = block.clone();
    let address = block.records[at].offset() as u32 / 8;
    let mut slots = after.slots.iter_mut();
    let slot = slots.find(|slot| slot.address == address);
    slot.expect("INDEX gives each live entry a slot").address = 0;
    after.stale += 1;
    after.records.splice(joined, [gap]);
    Change {
        refusal: 0,
        bytes: after.write(options, bytes, None),
        notes: vec![match (left, right) {
            (false, false) => "joins none",
            (true, false) => "joins left",
            (false, true) => "joins right",
            (true, true) => "joins both",
        }],
    }
}

/// The block and the record to take out, which is never the first: that is ".".
fn removable(options: &Options, bytes: &[u8], name: &[u8]) -> Result<(Block, usize), u32> {
    let block = read(options, bytes)?;
    want(legal_name(options, name), ASKED)?;
    want(!is_dot(name), FIXED)?;
    let at = block.position(options, name).ok_or(ABSENT)?;
    Ok((block, at))
}
