//! The frame of a structure's test: every call over real, damaged, generated and junk bytes, over each bit flipped and over long
//! lists of calls. A structure says what is its own.

use super::build::{self, Fault};
use super::calls::Lab;
use super::damage::{self, Fields};
use super::{images, rounds, Rng};
use pelunziwa::model::Change;

/// The bytes of a structure, and the block size that its calls are told (0 where they are told none).
#[derive(Clone)]
pub struct Case {
    pub bytes: Vec<u8>,
    pub told: u64,
}

impl Case {
    pub fn of(bytes: Vec<u8>) -> Case {
        Case { bytes, told: 0 }
    }

    fn with(&self, bytes: Vec<u8>) -> Case {
        let told = self.told;
        Case { bytes, told }
    }
}

pub trait Structure {
    /// What a lookup or a change asks for.
    type Key: Clone + PartialEq;
    /// The name of its calls in the images' index.
    const CALL: &'static str;
    /// How many structures are generated, and how many are junk.
    const GENERATED: usize;
    const JUNK: usize;
    /// In a list of calls, how many of 10 changes put something in: for so many calls in turn.
    const PUTS: &'static [usize];
    const TURN: usize;

    /// The keys that it holds, if it is right.
    fn held(case: &Case) -> Vec<Self::Key>;
    /// The model's verdict.
    fn verdict(case: &Case) -> u32;
    /// Its structural fields, by kind.
    fn fields(case: &Case) -> Vec<Fields>;
    /// Where a walk starts, and places that one can stand at or nearly.
    fn first_place(case: &Case) -> u64;
    fn places(case: &Case) -> Vec<u64>;

    /// A key to ask for, and one to put in when `asked` was drawn.
    fn asked(rng: &mut Rng, held: &[Self::Key]) -> Self::Key;
    fn to_put(lab: &mut Lab, case: &Case, held: &[Self::Key], asked: Self::Key) -> Self::Key;

    fn test(lab: &mut Lab, case: &Case);
    fn look(lab: &mut Lab, case: &Case, key: &Self::Key);
    fn put(lab: &mut Lab, case: &Case, key: &Self::Key) -> Change;
    fn take(lab: &mut Lab, case: &Case, key: &Self::Key) -> Change;
    /// One step of the walk: where it stands next, unless it ended or was refused.
    fn step(lab: &mut Lab, case: &Case, place: u64) -> Option<u64>;

    /// Real ones beside those of the index.
    fn more_real() -> Vec<Case> {
        Vec::new()
    }
    fn generated(rng: &mut Rng, faults: &[Fault]) -> Case;
    fn junk(rng: &mut Rng) -> Case;
    /// One of each length whose fields are tried one by one.
    fn small(rng: &mut Rng) -> Vec<Case>;
    /// Changes at the edge of what fits.
    fn edges(lab: &mut Lab, case: &Case);
    /// The same bytes, told something else.
    fn retold(_lab: &mut Lab, _case: &Case) -> Option<Case> {
        None
    }
    fn lists(lab: &mut Lab);
}

/// All of it; the calls that were made are printed.
pub fn run<S: Structure>(lab: &mut Lab) {
    real::<S>(lab);
    generated::<S>(lab);
    exhaustive::<S>(lab);
    for _ in 0..rounds(S::JUNK) {
        let case = S::junk(&mut lab.rng);
        each_call::<S>(lab, &case, &[]);
    }
    S::lists(lab);
    println!("{} calls", lab.cover.calls());
}

/// Each call once; what the changes leave is dropped.
pub fn each_call<S: Structure>(lab: &mut Lab, case: &Case, held: &[S::Key]) {
    S::test(lab, case);
    let key = S::asked(&mut lab.rng, held);
    S::look(lab, case, &key);
    let key = S::asked(&mut lab.rng, held);
    S::put(lab, case, &key);
    let key = S::asked(&mut lab.rng, held);
    S::take(lab, case, &key);
    let place = place::<S>(lab, case);
    S::step(lab, case, place);
}

/// A walk's place: mostly one that a walk can stand at, or near one.
fn place<S: Structure>(lab: &mut Lab, case: &Case) -> u64 {
    let mut places = S::places(case);
    places.extend([0, u64::MAX, 1 << 32 | S::first_place(case), lab.rng.next()]);
    let place = lab.rng.pick(&places);
    match lab.rng.below(9) {
        0 => place.wrapping_add(1),
        1 => place.wrapping_sub(1),
        2 => place.wrapping_add(8),
        3 => place.wrapping_sub(8),
        _ => place,
    }
}

/// A whole walk. Each step tests the whole structure, so large ones are left out.
pub fn walk<S: Structure>(lab: &mut Lab, case: &Case) {
    let mut place = Some(S::first_place(case)).filter(|_| case.bytes.len() <= 4096);
    while let Some(stands) = place {
        place = S::step(lab, case, stands);
    }
}

/// Real structures, damaged copies of them, other lengths and other sizes told.
fn real<S: Structure>(lab: &mut Lab) {
    let indexed = images::of_call(S::CALL).into_iter();
    let mut cases: Vec<Case> = indexed.map(|(bytes, told)| Case { bytes, told }).collect();
    cases.extend(S::more_real());
    for case in &cases {
        let held = S::held(case);
        each_call::<S>(lab, case, &held);
        walk::<S>(lab, case);
        let fields = S::fields(case);
        for _ in 0..rounds(40) {
            hurt::<S>(lab, case, &fields, &held);
        }
        for _ in 0..rounds(3) {
            let resized = damage::resized(&mut lab.rng, &case.bytes);
            each_call::<S>(lab, &case.with(resized), &held);
            if let Some(retold) = S::retold(lab, case) {
                each_call::<S>(lab, &retold, &held);
            }
        }
    }
}

fn hurt<S: Structure>(lab: &mut Lab, case: &Case, fields: &[Fields], held: &[S::Key]) {
    let mut copy = case.clone();
    damage::hurt(&mut lab.rng, &mut copy.bytes, fields);
    each_call::<S>(lab, &copy, held);
}

/// Generated structures, right and nearly right.
pub fn generated<S: Structure>(lab: &mut Lab) {
    for _ in 0..rounds(S::GENERATED) {
        let faults = build::faults(&mut lab.rng);
        let case = S::generated(&mut lab.rng, &faults);
        let held = S::held(&case);
        each_call::<S>(lab, &case, &held);
        S::edges(lab, &case);
        hurt::<S>(lab, &case, &S::fields(&case), &held);
    }
}

/// Every structural field of some off by one and by eight, and every bit of the small ones flipped.
fn exhaustive<S: Structure>(lab: &mut Lab) {
    for case in S::small(&mut lab.rng) {
        let held = S::held(&case);
        for copy in damage::off_by_one(&case.bytes, &S::fields(&case)) {
            each_call::<S>(lab, &case.with(copy), &held);
        }
        let len = case.bytes.len();
        let bits = if len <= 512 { 8 * len } else { 0 };
        for bit in 0..bits {
            let mut copy = case.clone();
            copy.bytes[bit / 8] ^= 1 << (bit % 8);
            each_call::<S>(lab, &copy, &held);
        }
    }
}

/// A long list of calls on one structure: filled up, thinned out, mixed.
pub fn list<S: Structure>(lab: &mut Lab, mut case: Case, calls: usize) {
    let mut held = S::held(&case);
    for call in 0..calls {
        let puts = S::PUTS[call / S::TURN % S::PUTS.len()];
        let key = S::asked(&mut lab.rng, &held);
        match lab.rng.below(10) {
            0 => S::look(lab, &case, &key),
            1 => {
                let place = place::<S>(lab, &case);
                S::step(lab, &case, place);
            }
            _ if lab.rng.below(10) < puts => {
                let key = S::to_put(lab, &case, &held, key);
                let change = S::put(lab, &case, &key);
                case.bytes = change.bytes;
                if change.refusal == 0 {
                    held.retain(|other| *other != key);
                    held.push(key);
                }
            }
            _ => {
                let change = S::take(lab, &case, &key);
                case.bytes = change.bytes;
                if change.refusal == 0 {
                    held.retain(|other| *other != key);
                }
            }
        }
    }
    assert_eq!(S::verdict(&case), 0);
    walk::<S>(lab, &case);
}
