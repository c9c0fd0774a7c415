//! A directory over a long list of calls, held to a book of names with numbers that sees no answers: the
//! paper's demand 3 for blocks, and its counterpart for short forms, tried through the safe wrappers.

mod common;

use common::build::{self, BLOCK_SIZES, INODE_SIZES};
use common::{names, rounds, Rng, V4};
use pelunziwa::{block, model, sfdir, Refusal};
use std::collections::BTreeMap;

type Book = BTreeMap<Vec<u8>, u64>;

fn code<T>(result: Result<T, Refusal>) -> Result<T, u32> {
    result.map_err(Refusal::number)
}

/// A directory in one of its forms. The room rule is the model's.
trait Directory {
    /// The names with their numbers; the directory must be right.
    fn held(&self) -> Book;
    fn lookup(&self, name: &[u8]) -> Result<u64, u32>;
    fn insert(&mut self, name: &[u8], number: u64) -> Result<(), u32>;
    fn remove(&mut self, name: &[u8]) -> Result<(), u32>;
    fn has_room(&self, name: &[u8], number: u64) -> bool;
    /// What the book says to a lookup.
    fn wanted(book: &Book, name: &[u8]) -> Result<u64, u32>;
    /// Right after a removal its room serves again, tried on a copy.
    fn refill(&self, rng: &mut Rng, removed: (&[u8], u64));
}

struct Block(Vec<u8>);

impl Directory for Block {
    fn held(&self) -> Book {
        assert_eq!(block::test(&self.0), Ok(()));
        assert_eq!(parts(&self.0), self.0.len());
        let entry = |live: (usize, u64, &[u8])| (live.2.to_vec(), live.1);
        let block = model::block::read(V4, &self.0).expect("a right block");
        block.live().map(entry).collect()
    }

    fn lookup(&self, name: &[u8]) -> Result<u64, u32> {
        let found = block::lookup(&self.0, name).map_err(Refusal::from);
        code(found.map(|found| found.number))
    }

    fn insert(&mut self, name: &[u8], number: u64) -> Result<(), u32> {
        code(block::insert(&mut self.0, name, number))
    }

    fn remove(&mut self, name: &[u8]) -> Result<(), u32> {
        code(block::remove(&mut self.0, name))
    }

    fn has_room(&self, name: &[u8], _number: u64) -> bool {
        let block = model::block::read(V4, &self.0).expect("a right block");
        block.room(V4, name.len()).is_some()
    }

    fn wanted(book: &Book, name: &[u8]) -> Result<u64, u32> {
        book_lookup(book, name)
    }

    /// Every legal absent name that is no longer, with any legal number but the directory's own.
    fn refill(&self, rng: &mut Rng, removed: (&[u8], u64)) {
        let held = self.held();
        let len = rng.between(1, removed.0.len());
        let mut drawn = (0..1000).map(|_| names::of_len(rng, len));
        let name = drawn.find(|name| !held.contains_key(name));
        let name = name.expect("an absent name");
        let wide = rng.one_in(2);
        let own = held[&b"."[..]];
        let number = names::entry_number(rng, wide, own);
        let refused = Block(self.0.clone()).insert(&name, own);
        assert_eq!(refused, Err(model::ASKED));
        assert_eq!(Block(self.0.clone()).insert(&name, number), Ok(()));
    }
}

/// Header, live entries, gaps, slots and tail.
fn parts(bytes: &[u8]) -> usize {
    let block = model::block::read(V4, bytes).expect("a right block");
    let size = |(_, _, name): (usize, u64, &[u8])| model::entry_size(V4, name.len());
    let live: usize = block.live().map(size).sum();
    let gaps: usize = block.gaps().iter().map(|gap| gap.1).sum();
    16 + live + gaps + 8 * block.slots.len() + 8
}

#[derive(Clone)]
struct ShortForm {
    inode: Vec<u8>,
    told: u64,
}

impl Directory for ShortForm {
    /// The entries, and ".." with the parent.
    fn held(&self) -> Book {
        assert_eq!(sfdir::test(&self.inode, self.told), Ok(()));
        let dir = model::sfdir::read(V4, &self.inode, self.told).expect("a right directory");
        let entries = dir.entries.into_iter().map(|e| (e.name, e.number));
        entries.chain([(b"..".to_vec(), dir.parent)]).collect()
    }

    fn lookup(&self, name: &[u8]) -> Result<u64, u32> {
        let found = sfdir::lookup(&self.inode, self.told, name);
        code(found.map(|found| found.number))
    }

    fn insert(&mut self, name: &[u8], number: u64) -> Result<(), u32> {
        code(sfdir::insert(&mut self.inode, self.told, name, number))
    }

    fn remove(&mut self, name: &[u8]) -> Result<(), u32> {
        code(sfdir::remove(&mut self.inode, self.told, name))
    }

    fn has_room(&self, name: &[u8], number: u64) -> bool {
        let tried = model::sfdir::insert(V4, &self.inode, self.told, name, number);
        tried.refusal != model::NOROOM
    }

    /// A short form holds no ".": looking it up is 12.
    fn wanted(book: &Book, name: &[u8]) -> Result<u64, u32> {
        match name {
            b"." => Err(model::FIXED),
            _ => book_lookup(book, name),
        }
    }

    /// The same name with the same number.
    fn refill(&self, _rng: &mut Rng, removed: (&[u8], u64)) {
        assert_eq!(self.clone().insert(removed.0, removed.1), Ok(()));
    }
}

#[test]
fn blocks_follow_the_book() {
    let mut rng = Rng::new(0xb00c);
    let mut done = BTreeMap::new();
    for len in BLOCK_SIZES {
        for _ in 0..rounds(3) {
            let block = Block(build::block(&mut rng, len, &[]));
            follow(&mut rng, block, &mut done);
        }
    }
    all_reached(&done, &[0, 11, 13], &[11]);
}

#[test]
fn short_forms_follow_the_book() {
    let mut rng = Rng::new(0xb00d);
    let mut done = BTreeMap::new();
    for len in INODE_SIZES {
        for _ in 0..rounds(6) {
            let (inode, told) = build::sfdir(&mut rng, len, &[]);
            follow(&mut rng, ShortForm { inode, told }, &mut done);
        }
    }
    all_reached(&done, &[0, 11, 12, 13], &[]);
}

type Reached = BTreeMap<(&'static str, u32), usize>;

fn follow<D: Directory>(rng: &mut Rng, mut dir: D, done: &mut Reached) {
    let mut book = dir.held();
    for _ in 0..400 {
        let call = one_call(rng, &mut dir, &mut book);
        *done.entry(call).or_insert(0) += 1;
        assert_eq!(dir.held(), book);
    }
}

/// Every answer that the book has, and no other. A short form does not store its own number.
fn all_reached(done: &Reached, lookups: &[u32], own: &[u32]) {
    println!("{done:?}");
    let answers = [
        ("insert", &[0, 11, 12, 14, 15][..]),
        ("insert after removal", &[0]),
        ("insert of the own number", own),
        ("lookup", lookups),
        ("removal", &[0, 11, 12, 13]),
    ];
    let each = |(call, codes): (&'static str, &[u32])| -> Vec<(&str, u32)> {
        codes.iter().map(|code| (call, *code)).collect()
    };
    let wanted: Vec<(&str, u32)> = answers.into_iter().flat_map(each).collect();
    assert_eq!(done.keys().copied().collect::<Vec<_>>(), wanted);
}

/// One call; which it was and the answer that library and book agree on.
fn one_call<D: Directory>(rng: &mut Rng, dir: &mut D, book: &mut Book) -> (&'static str, u32) {
    let all: Vec<Vec<u8>> = book.keys().cloned().collect();
    let name = names::asked(rng, &all);
    match rng.below(5) {
        0 => {
            let want = D::wanted(book, &name);
            assert_eq!(dir.lookup(&name), want);
            ("lookup", want.err().unwrap_or(0))
        }
        1 | 2 => {
            let own = own_number(book);
            let number = names::number(rng, own);
            let new = names::legal(rng);
            let name = rng.pick(&[name, new]);
            let room = dir.has_room(&name, number);
            let want = book_insert(book, &name, number, room);
            assert_eq!(dir.insert(&name, number), want);
            let call = match own == Some(number) {
                true => "insert of the own number",
                false => "insert",
            };
            (call, want.err().unwrap_or(0))
        }
        _ => {
            let number = book.get(&name).copied();
            let want = book_remove(book, &name);
            assert_eq!(dir.remove(&name), want);
            if let (Ok(()), Some(number), true) = (want, number, rng.one_in(2)) {
                dir.refill(rng, (&name, number));
                return ("insert after removal", 0);
            }
            ("removal", want.err().unwrap_or(0))
        }
    }
}

fn book_lookup(book: &Book, name: &[u8]) -> Result<u64, u32> {
    match book.get(name) {
        _ if !model::legal_name(V4, name) => Err(model::ASKED),
        Some(number) => Ok(*number),
        None => Err(model::ABSENT),
    }
}

/// The number held for ".", which a short form's book does not hold.
fn own_number(book: &Book) -> Option<u64> {
    book.get(&b"."[..]).copied()
}

fn book_insert(book: &mut Book, name: &[u8], number: u64, room: bool) -> Result<(), u32> {
    let legal_number = model::legal_number(number) && own_number(book) != Some(number);
    if !model::legal_name(V4, name) || !legal_number {
        Err(model::ASKED)
    } else if model::is_dot(name) {
        Err(model::FIXED)
    } else if book.contains_key(name) {
        Err(model::EXISTS)
    } else if !room {
        Err(model::NOROOM)
    } else {
        book.insert(name.to_vec(), number);
        Ok(())
    }
}

fn book_remove(book: &mut Book, name: &[u8]) -> Result<(), u32> {
    if !model::legal_name(V4, name) {
        Err(model::ASKED)
    } else if model::is_dot(name) {
        Err(model::FIXED)
    } else {
        book.remove(name).map(|_| ()).ok_or(model::ABSENT)
    }
}
