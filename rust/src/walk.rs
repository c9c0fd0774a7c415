//! What the walks over directories and attribute lists share.

use crate::{raw, Refusal};
use std::iter;

/// One step of a walk: what stands at the place that was asked, and where the walk now stands.
#[derive(Clone, Copy, Debug, PartialEq, Eq)]
pub struct Step<T> {
    pub next: u64,
    pub seen: Seen<T>,
}

/// What a step saw. Only block directories have gaps.
#[derive(Clone, Copy, Debug, PartialEq, Eq)]
pub enum Seen<T> {
    Live(T),
    Gap,
    End,
}

/// A live directory entry; the name is part of the slice that was lent.
#[derive(Clone, Copy, Debug, PartialEq, Eq)]
pub struct Entry<'a> {
    pub tag: u64,
    pub number: u64,
    pub name: &'a [u8],
}

/// The part of the lent bytes that the library points at.
pub(crate) fn part(lent: &[u8], start: u64, len: u64) -> &[u8] {
    &lent[start as usize..][..len as usize]
}

/// A directory's step from the library's.
pub(crate) fn dir_step(lent: &[u8], step: raw::Step) -> Result<Step<Entry<'_>>, Refusal> {
    Refusal::check(step.refusal)?;
    let seen = match step.seen {
        2 => Seen::Live(Entry {
            tag: step.tag,
            number: step.number,
            name: part(lent, step.name_start, step.name_len),
        }),
        1 => Seen::Gap,
        _ => Seen::End,
    };
    let next = step.next;
    Ok(Step { next, seen })
}

/// The live records from `first` on, place by place until the end; a refusal is the last item.
pub(crate) fn live<T>(
    first: u64,
    step: impl Fn(u64) -> Result<Step<T>, Refusal>,
) -> impl Iterator<Item = Result<T, Refusal>> {
    let mut place = Some(first);
    iter::from_fn(move || loop {
        let taken = match step(place?) {
            Ok(taken) => taken,
            Err(refusal) => {
                place = None;
                return Some(Err(refusal));
            }
        };
        place = Some(taken.next);
        match taken.seen {
            Seen::Live(entry) => return Some(Ok(entry)),
            Seen::Gap => continue,
            Seen::End => place = None,
        }
    })
}
