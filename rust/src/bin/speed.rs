//! Times the library, the yardstick and the model on one machine and the same inputs, and prints medians and ratios as tables.
//!
//! The contenders of a row (but for the model's changes) take turns, so that a busy moment of the machine falls on all of them; so do the library's calls where they are
//! compared with each other. Full blocks are filled by the library's own insert, with names from fixed seeds.

use pelunziwa::model::{self, Options};
use pelunziwa::{alike, block, hash, yardstick, Refusal};
use std::cell::RefCell;
use std::hint::black_box;
use std::time::Instant;

const ROUNDS: usize = 61;
const BLOCKS: u64 = 16;
const V4: &Options = &Options::V4;
/// The own number of the blocks that are filled; no entry may bear it.
const OWN: u64 = 128;

struct Random(u64);

impl Random {
    fn below(&mut self, n: u64) -> u64 {
        self.0 ^= self.0 << 13;
        self.0 ^= self.0 >> 7;
        self.0 ^= self.0 << 17;
        (self.0 >> 11) % n
    }

    fn name(&mut self, shortest: u64, longest: u64) -> Vec<u8> {
        let letters = b"abcdefghijklmnopqrstuvwxyz0123456789_-ABCDEFGH";
        let len = shortest + self.below(longest - shortest + 1);
        (0..len)
            .map(|_| letters[self.below(letters.len() as u64) as usize])
            .collect()
    }
}

/// How long names are.
struct Names {
    what: &'static str,
    shortest: u64,
    longest: u64,
}

impl Names {
    const fn of(what: &'static str, shortest: u64, longest: u64) -> Names {
        Names {
            what,
            shortest,
            longest,
        }
    }
}

const TINY: Names = Names::of("1 to 3 byte", 1, 3);
const SHORT: Names = Names::of("1 to 5 byte", 1, 5);
const TYPICAL: Names = Names::of("8 to 24 byte", 8, 24);
const LONGEST: Names = Names::of("255 byte", 255, 255);
const KINDS: [Names; 4] = [TINY, SHORT, TYPICAL, LONGEST];

/// Blocks that mkfs.xfs and a kernel filled, by their size.
const REAL: [(usize, &[&str]); 3] = [
    (
        4096,
        &[
            "mk-v4-b512-n4096-i256-near",
            "mk-v4-ci-b4096-n4096-i256-near",
        ],
    ),
    (
        16_384,
        &["full-v4-b4096-n16384", "mk-v4-b4096-n16384-i1024-near"],
    ),
    (
        65_536,
        &[
            "mk-v4-b4096-n65536-i256-full",
            "mk-v4-b4096-n65536-i256-near",
        ],
    ),
];

/// A full block, and the names in it; of a real one the names are not asked for.
struct Full {
    bytes: Vec<u8>,
    names: Vec<Vec<u8>>,
}

/// A block with "." and ".." alone.
fn empty(size: usize) -> Vec<u8> {
    let mut b = vec![0; size];
    let gap = (size - 72) as u16;
    let mut put = |at: usize, bytes: &[u8]| b[at..at + bytes.len()].copy_from_slice(bytes);
    put(0, &0x5844_3242u32.to_be_bytes());
    put(4, &[48u16.to_be_bytes(), gap.to_be_bytes()].concat());
    put(16, &OWN.to_be_bytes());
    put(24, &[1, b'.', 0, 0, 0, 0, 0, 16]);
    put(32, &OWN.to_be_bytes());
    put(40, &[2, b'.', b'.', 0, 0, 0, 0, 32]);
    put(48, &[0xffffu16.to_be_bytes(), gap.to_be_bytes()].concat());
    put(size - 26, &48u16.to_be_bytes());
    let words = [0x2e, 2, 0x172e, 4, 2, 0];
    put(size - 24, &words.map(u32::to_be_bytes).concat());
    b
}

/// Inserts until 200 names have found no room, or there are no more.
fn fill(size: usize, seed: u64, more: impl Iterator<Item = Vec<u8>>) -> Full {
    let mut random = Random(seed);
    let mut bytes = empty(size);
    let mut names = Vec::new();
    let mut refused = 0;
    for name in more {
        let number = OWN + 1 + random.below(1 << 40);
        match block::insert(&mut bytes, &name, number) {
            Ok(()) => names.push(name),
            Err(Refusal::NoRoom) => refused += 1,
            Err(_) => (),
        }
        if refused == 200 {
            break;
        }
    }
    Full { bytes, names }
}

fn full(size: usize, kind: &Names, seed: u64) -> Full {
    let mut random = Random(!seed);
    let (shortest, longest) = (kind.shortest, kind.longest);
    fill(
        size,
        seed,
        std::iter::repeat_with(move || random.name(shortest, longest)),
    )
}

/// A real block, full or nearly so.
fn real(file: &str) -> Full {
    let folder = concat!(env!("CARGO_MANIFEST_DIR"), "/tests/images/");
    Full {
        bytes: std::fs::read(format!("{folder}{file}.dirblock")).expect("a real block"),
        names: Vec::new(),
    }
}

type Job<'a> = Box<dyn FnMut() + 'a>;

/// Nanoseconds of one run of each job divided by `calls`, how many calls a run makes: the median over the rounds.
fn medians<const N: usize>(calls: usize, mut jobs: [Job; N]) -> [f64; N] {
    let mut times = [(); N].map(|_| Vec::with_capacity(ROUNDS));
    for _ in 0..ROUNDS {
        for (job, times) in jobs.iter_mut().zip(&mut times) {
            let start = Instant::now();
            job();
            times.push(start.elapsed().as_nanos() as f64 / calls as f64);
        }
    }
    times.map(|mut t| {
        t.sort_by(f64::total_cmp);
        t[ROUNDS / 2]
    })
}

fn hashing<'a>(names: &'a [Vec<u8>], hash: impl Fn(&[u8]) -> u32 + 'a) -> Job<'a> {
    Box::new(move || {
        for name in names {
            black_box(hash(black_box(name)));
        }
    })
}

/// The hash alone: the library's, and in Rust byte by byte and four bytes a turn.
fn hashes() {
    println!("| hash of names | library, ns | byte by byte in Rust, ns | four a turn in Rust, ns | library / byte by byte | library / four a turn |");
    println!("|---|---|---|---|---|---|");
    for kind in KINDS {
        let mut random = Random(7);
        // Of mixed lengths so many that the processor does not learn them.
        let mixed = kind.shortest < kind.longest;
        let count = if mixed { 50_000 } else { 1_000 };
        let names: Vec<_> = (0..count)
            .map(|_| random.name(kind.shortest, kind.longest))
            .collect();
        for name in &names {
            assert_eq!(hash(name), yardstick::hash(name));
            assert_eq!(hash(name), yardstick::hash_by_fours(name));
        }
        let [ours, bytes, fours] = medians(
            names.len(),
            [
                hashing(&names, hash),
                hashing(&names, yardstick::hash),
                hashing(&names, yardstick::hash_by_fours),
            ],
        );
        println!(
            "| {} | {ours:.1} | {bytes:.1} | {fours:.1} | {:.2} | {:.2} |",
            kind.what,
            ours / bytes,
            ours / fours
        );
    }
    println!();
}

/// A run of a test over all blocks, each of which passes.
fn testing(blocks: &[Full], test: fn(&[u8]) -> u32) -> Job<'_> {
    Box::new(move || {
        for b in blocks {
            assert_eq!(test(black_box(&b.bytes)), 0);
        }
    })
}

fn library_test(b: &[u8]) -> u32 {
    block::test(b).map_or_else(Refusal::number, |()| 0)
}

/// A run of the bare walk over all blocks.
fn walking(blocks: &[Full]) -> Job<'_> {
    Box::new(move || {
        for b in blocks {
            assert!(black_box(yardstick::bare_walk(black_box(&b.bytes))) > 2);
        }
    })
}

/// A block, and a name in it that a call is about.
type Asked = (Vec<u8>, Vec<u8>);

fn asked_of((turn, b): (usize, &Full)) -> Asked {
    (b.bytes.clone(), b.names[turn % b.names.len()].clone())
}

/// A lookup of a stored name, by the library, the yardstick and the model.
fn lookups(asked: &[Asked]) -> [Job<'_>; 3] {
    for (b, n) in asked {
        assert_eq!(block::lookup(b, n).ok(), yardstick::lookup(b, n).ok());
    }
    [
        Box::new(move || {
            for (b, n) in asked {
                assert!(block::lookup(black_box(b), n).is_ok());
            }
        }),
        Box::new(move || {
            for (b, n) in asked {
                assert!(yardstick::lookup(black_box(b), n).is_ok());
            }
        }),
        Box::new(move || {
            for (b, n) in asked {
                assert_eq!(model::block::lookup(V4, black_box(b), n).refusal, 0);
            }
        }),
    ]
}

/// Blocks that calls change in place.
type Changed = RefCell<Vec<Asked>>;

/// A stored name's removal, which leaves the block as the next job, its insert, finds it.
fn removing(ours: &Changed) -> Job<'_> {
    Box::new(move || {
        for (b, n) in ours.borrow_mut().iter_mut() {
            assert!(block::remove(b, n).is_ok());
        }
    })
}

fn inserting(ours: &Changed) -> Job<'_> {
    Box::new(move || {
        for (b, n) in ours.borrow_mut().iter_mut() {
            assert!(block::insert(b, n, 5).is_ok());
        }
    })
}

/// The same two by the model, each on its own copies.
fn model_changes<'a>(asked: &'a [Asked], left: &'a [Asked]) -> [Job<'a>; 2] {
    [
        Box::new(move || {
            for (b, n) in asked {
                assert_eq!(model::block::remove(V4, black_box(b), n).refusal, 0);
            }
        }),
        Box::new(move || {
            for (b, n) in left {
                assert_eq!(model::block::insert(V4, black_box(b), n, 5).refusal, 0);
            }
        }),
    ]
}

/// So many full blocks of a kind, and how many names each holds on average.
fn filled(count: u64, size: usize, kind: &Names) -> (Vec<Full>, f64) {
    let seeds = 1000..1000 + count;
    let blocks: Vec<_> = seeds.map(|seed| full(size, kind, seed)).collect();
    let names = blocks.iter().map(|b| b.names.len()).sum::<usize>();
    let each = names as f64 / blocks.len() as f64;
    (blocks, each)
}

/// Microseconds, in three digits or more.
fn micro(nanoseconds: f64) -> String {
    let t = nanoseconds / 1000.0;
    match t {
        ..10.0 => format!("{t:.2}"),
        _ => format!("{t:.1}"),
    }
}

/// The test of blocks by the library and the yardstick, and the bare walk over their records.
fn test_row(what: &str, blocks: &[Full]) {
    let [ours, yard, bare] = medians(
        blocks.len(),
        [
            testing(blocks, library_test),
            testing(blocks, yardstick::test),
            walking(blocks),
        ],
    );
    println!(
        "| {what} | {} | {} | {} | {:.3} | {:.2} |",
        micro(ours),
        micro(yard),
        micro(bare),
        ours / yard,
        bare / ours
    );
}

fn named_row(size: usize, kind: &Names) {
    let (blocks, entries) = filled(BLOCKS, size, kind);
    let what = format!("{size} bytes, {} names ({entries:.0})", kind.what);
    test_row(&what, &blocks);
}

/// Blocks whose names fall together: few, since the yardstick takes long.
fn alike_row(size: usize, what: &str, names: &[Vec<u8>]) {
    let blocks: Vec<_> = (0..2)
        .map(|seed| fill(size, 1 + seed, names.iter().cloned()))
        .collect();
    let entries = blocks[0].names.len();
    test_row(&format!("{size} bytes, {what} ({entries})"), &blocks);
}

fn tests() {
    println!("| test of full blocks (names in each) | library, us | yardstick, us | bare walk, us | library / yardstick | bare walk / library |");
    println!("|---|---|---|---|---|---|");
    for size in [512, 4096, 16_384, 65_536] {
        for kind in &KINDS {
            named_row(size, kind);
        }
    }
    for (what, files) in REAL {
        let blocks: Vec<_> = files.iter().map(|file| real(file)).collect();
        test_row(&format!("{what} bytes, real ({})", files.len()), &blocks);
    }
    let in_hash: Vec<_> = (0..1 << 11).map(alike::in_hash).collect();
    let in_both = alike::in_both(1 << 11);
    for (what, names) in [("one hash", in_hash), ("one hash and key", in_both)] {
        for size in [4096, 16_384, 65_536] {
            alike_row(size, what, &names);
        }
    }
    println!();
}

/// A lookup, a removal and an insert, and what they take by the side of a test.
fn call_rows(size: usize, kind: &Names) {
    let (blocks, entries) = filled(BLOCKS, size, kind);
    let asked: Vec<_> = (37..).step_by(37).zip(&blocks).map(asked_of).collect();
    let without = |(b, n): &Asked| (model::block::remove(V4, b, n).bytes, n.clone());
    let left: Vec<_> = asked.iter().map(without).collect();
    let ours = RefCell::new(asked.clone());
    let count = blocks.len();
    let [look, yard_look, model_look] = medians(count, lookups(&asked));
    let [model_remove, model_insert] = medians(count, model_changes(&asked, &left));
    // The library's calls in turns with each other alone: a turn behind the model's finds fewer branches learned.
    let [own_look, ..] = lookups(&asked);
    let test = testing(&blocks, library_test);
    let jobs = [test, own_look, removing(&ours), inserting(&ours)];
    let [test, own_look, remove, insert] = medians(count, jobs);
    let name = format!("{size} bytes, {} names ({entries:.0})", kind.what);
    let line = |call: &str, ours: f64, yard: Option<f64>, model: f64, own: f64| {
        let (y, ratio) = match yard {
            Some(y) => (micro(y), format!("{:.2}", ours / y)),
            None => ("-".into(), "-".into()),
        };
        println!(
            "| {name} | {call} | {} | {y} | {} | {ratio} | {:.3} | {:.2} |",
            micro(ours),
            micro(model),
            ours / model,
            own / test
        );
    };
    line("lookup", look, Some(yard_look), model_look, own_look);
    line("removal", remove, None, model_remove, remove);
    line("insert", insert, None, model_insert, insert);
}

/// A change of a block, by name.
type Change = fn(&mut [u8], &[u8]) -> Result<(), Refusal>;

fn inserted(b: &mut [u8], name: &[u8]) -> Result<(), Refusal> {
    block::insert(b, name, 5)
}

/// Changes that are made once, each on a copy of its block.
struct Once {
    what: &'static str,
    change: Change,
    asked: Vec<Asked>,
}

/// Nanoseconds of a call on a copy of each block; the copying is not counted.
fn on_copies(asked: &[Asked], call: impl Fn(&mut [u8], &[u8])) -> f64 {
    let mut copy = Vec::new();
    let mut taken = 0.0;
    for (b, name) in asked {
        copy.clone_from(b);
        let start = Instant::now();
        call(black_box(&mut copy), name);
        taken += start.elapsed().as_nanos() as f64;
    }
    taken / asked.len() as f64
}

/// What a change takes, and what a test of the same blocks does: medians of rounds in which the two take turns.
fn change_and_test(once: &Once) -> [f64; 2] {
    let mut times = [Vec::new(), Vec::new()];
    for _ in 0..ROUNDS {
        let changed = on_copies(&once.asked, |b, name| {
            assert!((once.change)(b, name).is_ok())
        });
        let tested = on_copies(&once.asked, |b, _| assert!(block::test(b).is_ok()));
        times[0].push(changed);
        times[1].push(tested);
    }
    times.map(|mut t| {
        t.sort_by(f64::total_cmp);
        t[ROUNDS / 2]
    })
}

/// How many slots, and how many of them stale.
fn slots(b: &[u8]) -> [u32; 2] {
    let tail = |back| u32::from_be_bytes(*b[b.len() - back..].first_chunk().expect("a tail"));
    [tail(8), tail(4)]
}

/// The same after an insert: the room rule's case shows in them.
fn grown(b: &[u8], name: &[u8]) -> [u32; 2] {
    let mut after = b.to_vec();
    assert!(block::insert(&mut after, name, 5).is_ok());
    slots(&after)
}

/// Half full, with one gap: filled by (d), and the next insert is by (d).
fn half_full(size: usize, kind: &Names, seed: u64) -> Full {
    let mut full = full(size, kind, seed);
    let half = full.names.len() / 2;
    let mut bytes = empty(size);
    for name in &full.names[..half] {
        assert!(block::insert(&mut bytes, name, 5).is_ok());
    }
    full.bytes = bytes;
    full
}

fn by_d(size: usize, kind: &Names, seed: u64) -> Asked {
    let half = half_full(size, kind, seed);
    let last = half.names[half.names.len() - 1].clone();
    assert_eq!(grown(&half.bytes, &last), [slots(&half.bytes)[0] + 1, 0]);
    (half.bytes, last)
}

/// Half full, with a gap that an entry of a name of 100 bytes has left, and no stale slot: the next insert is by (c).
fn by_c(size: usize, kind: &Names, seed: u64) -> Asked {
    let long = [b'l'; 100];
    let mut bytes = empty(size);
    assert!(block::insert(&mut bytes, &long, 5).is_ok());
    let names = full(size, kind, seed).names;
    for name in &names[..names.len() / 2] {
        assert!(block::insert(&mut bytes, name, 5).is_ok());
    }
    assert!(block::remove(&mut bytes, &long).is_ok());
    assert!(block::insert(&mut bytes, b"!", 5).is_ok());
    let last = names[names.len() - 1].clone();
    assert_eq!(grown(&bytes, &last), [slots(&bytes)[0] + 1, 0]);
    (bytes, last)
}

/// Whether the entry with this index, of so many, is removed.
type Gone = fn(usize, usize) -> bool;

fn every_eighth(index: usize, _: usize) -> bool {
    index % 8 == 0
}

/// Every second one of the last 32: no gap stands before them.
fn at_the_end(index: usize, count: usize) -> bool {
    index + 32 >= count && index % 2 == 0
}

/// A full block with entries removed: as many gaps, and stale slots. And the names removed.
fn with_gaps(size: usize, kind: &Names, seed: u64, gone: Gone) -> (Full, Vec<Vec<u8>>) {
    let mut full = full(size, kind, seed);
    let count = full.names.len();
    let removed: Vec<_> = (0..count)
        .filter(|&index| gone(index, count))
        .map(|index| full.names[index].clone())
        .collect();
    for name in &removed {
        assert!(block::remove(&mut full.bytes, name).is_ok());
    }
    (full, removed)
}

/// A name that fits no gap, by 8 bytes, but in the place of stale slots: the insert is by (b).
fn asked_for_b(b: Vec<u8>) -> Asked {
    let longest = u16::from_be_bytes([b[6], b[7]]);
    let name = vec![b'b'; usize::from(longest) + 8 - 11];
    assert_eq!(grown(&b, &name), [slots(&b)[0] - slots(&b)[1] + 1, 0]);
    (b, name)
}

fn by_b(size: usize, kind: &Names, seed: u64) -> Asked {
    asked_for_b(with_gaps(size, kind, seed, every_eighth).0.bytes)
}

/// How long the gap at the slots is.
fn last_gap(b: &[u8]) -> usize {
    let end = b.len() - 8 - 8 * slots(b)[0] as usize;
    let start = usize::from(u16::from_be_bytes([b[end - 2], b[end - 1]]));
    if b[start..].starts_with(&[0xff, 0xff]) {
        end - start
    } else {
        0
    }
}

/// A removed name, where an insert by (b) has dropped the stale slots: the insert is by (c), and there are three gaps at least.
fn by_c_after_b(size: usize, kind: &Names, seed: u64, gone: Gone) -> Asked {
    let (full, removed) = with_gaps(size, kind, seed, gone);
    let (mut b, long) = asked_for_b(full.bytes);
    assert!(block::insert(&mut b, &long, 5).is_ok());
    let name = removed[0].clone();
    let mut after = b.clone();
    assert!(block::insert(&mut after, &name, 5).is_ok());
    assert_eq!(slots(&after), [slots(&b)[0] + 1, 0]);
    assert_eq!(last_gap(&after), last_gap(&b) - 8);
    assert_ne!(b[14..16], [0, 0]);
    (b, name)
}

fn by_c_among_many(size: usize, kind: &Names, seed: u64) -> Asked {
    by_c_after_b(size, kind, seed, every_eighth)
}

fn by_c_at_the_end(size: usize, kind: &Names, seed: u64) -> Asked {
    by_c_after_b(size, kind, seed, at_the_end)
}

/// Many gaps: a removal, and an insert by (a).
fn removed_of_many(size: usize, kind: &Names, seed: u64) -> Asked {
    let (Full { bytes, names }, _) = with_gaps(size, kind, seed, every_eighth);
    (bytes, names[names.len() / 2 / 8 * 8 + 4].clone())
}

/// A removed name, which goes back into a gap by (a).
fn by_a(size: usize, kind: &Names, seed: u64, gone: Gone) -> Asked {
    let (Full { bytes, .. }, removed) = with_gaps(size, kind, seed, gone);
    let name = removed[removed.len() / 2].clone();
    assert_eq!(
        grown(&bytes, &name),
        [slots(&bytes)[0], slots(&bytes)[1] - 1]
    );
    (bytes, name)
}

fn by_a_among_many(size: usize, kind: &Names, seed: u64) -> Asked {
    by_a(size, kind, seed, every_eighth)
}

fn by_a_at_the_end(size: usize, kind: &Names, seed: u64) -> Asked {
    by_a(size, kind, seed, at_the_end)
}

/// Changes by every room rule and with many gaps, and what they take by the side of a test of the same block.
fn other_changes() {
    println!("| blocks | change | library, us | test, us | change / test |");
    println!("|---|---|---|---|---|");
    type Make = fn(usize, &Names, u64) -> Asked;
    let changes: [(&str, Change, Make); 8] = [
        ("insert by (b), many gaps", inserted, by_b),
        ("insert by (c), two gaps", inserted, by_c),
        ("insert by (c), many gaps", inserted, by_c_among_many),
        ("insert by (c), gaps at the end", inserted, by_c_at_the_end),
        ("insert by (d), one gap", inserted, by_d),
        ("insert by (a), many gaps", inserted, by_a_among_many),
        ("insert by (a), gaps at the end", inserted, by_a_at_the_end),
        ("removal, many gaps", block::remove, removed_of_many),
    ];
    for size in [4096, 16_384, 65_536] {
        for kind in [SHORT, TYPICAL] {
            for (what, change, make) in changes {
                let asked = (1000..1000 + BLOCKS).map(|seed| make(size, &kind, seed));
                let once = Once {
                    what,
                    change,
                    asked: asked.collect(),
                };
                let [changed, tested] = change_and_test(&once);
                println!(
                    "| {size} bytes, {} names | {} | {} | {} | {:.2} |",
                    kind.what,
                    once.what,
                    micro(changed),
                    micro(tested),
                    changed / tested
                );
            }
        }
    }
    println!();
}

const SIZES: usize = 8;

/// Entries of a full block, nanoseconds of a test, and for each entry: from the smallest block to the largest, which take turns. Each
/// size's blocks have as many bytes in all: few small blocks would have all their branches learned. In its turn a size runs twice, and the
/// second run counts: the first fetches its blocks back, after those of the others.
fn costs(kind: &Names) -> [[f64; 3]; SIZES] {
    let full: [_; SIZES] = std::array::from_fn(|k| {
        let count = BLOCKS << (SIZES - 1 - k);
        filled(count, 512 << k, kind)
    });
    let jobs: [_; 2 * SIZES] = std::array::from_fn(|i| testing(&full[i / 2].0, library_test));
    let times = medians(1, jobs);
    std::array::from_fn(|k| {
        let (blocks, names) = &full[k];
        // "." and ".." are entries too.
        let entries = names + 2.0;
        let test = times[2 * k + 1] / blocks.len() as f64;
        [entries, test, test / entries]
    })
}

/// What a test costs for each live entry, and how far that is from flat.
fn per_entry() {
    let kinds = [SHORT, TYPICAL];
    let titles = kinds
        .each_ref()
        .map(|k| format!(" {} names: entries | test, ns | ns for each |", k.what));
    println!("| full blocks |{}", titles.concat());
    println!("|---|---|---|---|---|---|---|");
    let columns = kinds.map(|kind| costs(&kind));
    for k in 0..SIZES {
        let cells = columns.map(|rows| {
            let [entries, test, each] = rows[k];
            format!(" {entries:.0} | {test:.0} | {each:.1} |")
        });
        println!("| {} bytes |{}", 512 << k, cells.concat());
    }
    let [short, typical] = columns.map(|rows| {
        let each = rows.map(|[_, _, each]| each);
        let most = each.into_iter().fold(f64::MIN, f64::max);
        most / each.into_iter().fold(f64::MAX, f64::min)
    });
    println!("| dearest / cheapest | | | {short:.2} | | | {typical:.2} |\n");
}

fn main() {
    hashes();
    tests();
    per_entry();
    println!("| full blocks (names in each) | call | library, us | yardstick, us | model, us | library / yardstick | library / model | call / test |");
    println!("|---|---|---|---|---|---|---|---|");
    for size in [512, 4096, 16_384, 65_536] {
        for kind in &KINDS {
            call_rows(size, kind);
        }
    }
    println!();
    other_changes();
}
