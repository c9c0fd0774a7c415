//! Every call of the boundary, held to the model: the answer with all its fields, and every byte of every
//! buffer and of the guards around it.

use super::{build, hex, Cover, Guarded, Rng, V4};
use pelunziwa::boundary as raw;
use pelunziwa::model::{self, attr, block, inode, sfdir, Change};
use pelunziwa::yardstick;
use std::fmt::Debug;

pub struct Lab {
    pub rng: Rng,
    pub cover: Cover,
}

impl Lab {
    pub fn new(seed: u64) -> Lab {
        Lab {
            rng: Rng::new(seed),
            cover: Cover::default(),
        }
    }

    /// Lends the buffers, runs the call and compares. `after` is what the first buffer must hold then.
    fn call<A: PartialEq + Debug>(
        &mut self,
        call: &str,
        asked: &dyn Debug,
        lent: &[&[u8]],
        run: impl FnOnce(&mut [Guarded]) -> A,
        want: A,
        after: &[u8],
    ) {
        let guard = |bytes: &&[u8]| Guarded::new(&mut self.rng, bytes);
        let mut buffers: Vec<Guarded> = lent.iter().map(guard).collect();
        let got = run(&mut buffers);
        let input = || {
            let parts: Vec<String> = lent.iter().map(|bytes| hex(bytes)).collect();
            format!("{call} {asked:?} of\n{}", parts.join("\n"))
        };
        assert!(got == want, "got {got:?}, model {want:?}: {}", input());
        let wanted = std::iter::once(after).chain(lent[1..].iter().copied());
        for (at, (buffer, wanted)) in buffers.iter().zip(wanted).enumerate() {
            let differs = buffer.differs(wanted);
            assert!(
                differs.is_none(),
                "buffer {at} differs at {differs:?}, answer {got:?}: {}",
                input()
            );
        }
    }

    fn changed(&mut self, call: &str, change: &Change) {
        self.cover.answer(call, change.refusal);
        for note in &change.notes {
            self.cover.note(call, note);
        }
    }

    pub fn hash(&mut self, name: &[u8]) {
        let want = model::hash(name);
        self.call(
            "hash",
            &(),
            &[name],
            |b| unsafe { raw::pzw_hash(b[0].ptr(), b[0].len()) },
            want,
            name,
        );
        self.cover.answer("hash", 0);
    }

    pub fn inode_test(&mut self, inode: &[u8]) {
        let want = inode::test(V4, inode);
        self.call(
            "inode_test",
            &(),
            &[inode],
            |b| unsafe { raw::pzw_inode_test(b[0].ptr(), b[0].len()) },
            want,
            inode,
        );
        self.cover.answer("inode_test", want.refusal);
    }
}

/// Short-form directories.
impl Lab {
    pub fn sfdir_test(&mut self, inode: &[u8], block_size: u64) {
        let want = sfdir::test(V4, inode, block_size);
        self.call(
            "sfdir_test",
            &block_size,
            &[inode],
            |b| unsafe { raw::pzw_sfdir_test(b[0].ptr(), b[0].len(), block_size) },
            want,
            inode,
        );
        self.cover.answer("sfdir_test", want);
    }

    pub fn sfdir_lookup(&mut self, inode: &[u8], block_size: u64, name: &[u8]) {
        let want = sfdir::lookup(V4, inode, block_size, name);
        self.call(
            "sfdir_lookup",
            &block_size,
            &[inode, name],
            |b| {
                let (lent, name) = (&b[0], &b[1]);
                unsafe {
                    raw::pzw_sfdir_lookup(
                        lent.ptr(),
                        lent.len(),
                        block_size,
                        name.ptr(),
                        name.len(),
                    )
                }
            },
            want,
            inode,
        );
        self.cover.answer("sfdir_lookup", want.refusal);
        if want.refusal == 0 && name == b".." {
            self.cover.note("sfdir_lookup", "the parent");
        }
    }

    pub fn sfdir_insert(
        &mut self,
        inode: &[u8],
        block_size: u64,
        name: &[u8],
        number: u64,
    ) -> Change {
        let want = sfdir::insert(V4, inode, block_size, name, number);
        self.call(
            "sfdir_insert",
            &(block_size, number),
            &[inode, name],
            |b| {
                let (len, at) = (b[0].len(), b[0].mut_ptr());
                unsafe {
                    raw::pzw_sfdir_insert(at, len, block_size, b[1].ptr(), b[1].len(), number)
                }
            },
            want.refusal,
            &want.bytes,
        );
        self.changed("sfdir_insert", &want);
        want
    }

    pub fn sfdir_remove(&mut self, inode: &[u8], block_size: u64, name: &[u8]) -> Change {
        let want = sfdir::remove(V4, inode, block_size, name);
        self.call(
            "sfdir_remove",
            &block_size,
            &[inode, name],
            |b| {
                let (len, at) = (b[0].len(), b[0].mut_ptr());
                unsafe { raw::pzw_sfdir_remove(at, len, block_size, b[1].ptr(), b[1].len()) }
            },
            want.refusal,
            &want.bytes,
        );
        self.changed("sfdir_remove", &want);
        want
    }

    pub fn sfdir_step(&mut self, inode: &[u8], block_size: u64, place: u64) -> model::Step {
        let want = sfdir::step(V4, inode, block_size, place);
        self.call(
            "sfdir_step",
            &(block_size, place),
            &[inode],
            |b| unsafe { raw::pzw_sfdir_step(b[0].ptr(), b[0].len(), block_size, place) },
            want,
            inode,
        );
        self.stepped("sfdir_step", want.refusal, want.seen);
        want
    }

    fn stepped(&mut self, call: &str, refusal: u32, seen: u32) {
        self.cover.answer(call, refusal);
        if refusal == 0 {
            let what = ["end", "gap", "live"][seen as usize];
            self.cover.note(call, what);
        }
    }
}

/// Short-form attributes.
impl Lab {
    pub fn attr_test(&mut self, inode: &[u8]) {
        let want = attr::test(V4, inode);
        self.call(
            "attr_test",
            &(),
            &[inode],
            |b| unsafe { raw::pzw_attr_test(b[0].ptr(), b[0].len()) },
            want,
            inode,
        );
        self.cover.answer("attr_test", want);
    }

    pub fn attr_lookup(&mut self, inode: &[u8], name: &[u8], flags: u32) {
        let want = attr::lookup(V4, inode, name, flags);
        self.call(
            "attr_lookup",
            &flags,
            &[inode, name],
            |b| {
                let (lent, name) = (&b[0], &b[1]);
                unsafe {
                    raw::pzw_attr_lookup(lent.ptr(), lent.len(), name.ptr(), name.len(), flags)
                }
            },
            want,
            inode,
        );
        self.cover.answer("attr_lookup", want.refusal);
        if want.refusal == 0 && want.len == 0 {
            self.cover.note("attr_lookup", "empty value");
        }
    }

    pub fn attr_set(&mut self, inode: &[u8], name: &[u8], flags: u32, value: &[u8]) -> Change {
        let want = attr::set(V4, inode, name, flags, value);
        self.call(
            "attr_set",
            &flags,
            &[inode, name, value],
            |b| {
                let (len, at) = (b[0].len(), b[0].mut_ptr());
                let (name, value) = (&b[1], &b[2]);
                unsafe {
                    raw::pzw_attr_set(
                        at,
                        len,
                        name.ptr(),
                        name.len(),
                        flags,
                        value.ptr(),
                        value.len(),
                    )
                }
            },
            want.refusal,
            &want.bytes,
        );
        self.changed("attr_set", &want);
        want
    }

    pub fn attr_remove(&mut self, inode: &[u8], name: &[u8], flags: u32) -> Change {
        let want = attr::remove(V4, inode, name, flags);
        self.call(
            "attr_remove",
            &flags,
            &[inode, name],
            |b| {
                let (len, at) = (b[0].len(), b[0].mut_ptr());
                unsafe { raw::pzw_attr_remove(at, len, b[1].ptr(), b[1].len(), flags) }
            },
            want.refusal,
            &want.bytes,
        );
        self.changed("attr_remove", &want);
        want
    }

    pub fn attr_step(&mut self, inode: &[u8], place: u64) -> model::AttrStep {
        let want = attr::step(V4, inode, place);
        self.call(
            "attr_step_at",
            &place,
            &[inode],
            |b| unsafe { raw::pzw_attr_step_at(b[0].ptr(), b[0].len(), place) },
            want,
            inode,
        );
        self.stepped("attr_step_at", want.refusal, want.seen);
        want
    }
}

/// Whether a block refused with 7 has the own number in an entry, and every number in range: with another one for "." it passes that test.
fn is_inside_itself(block: &[u8]) -> bool {
    const UNUSED: u64 = 0x5a_5a5a_5a5a_5a5a;
    let mut other = block.to_vec();
    model::put(&mut other, 16, 8, UNUSED);
    model::legal_number(build::own_number(block)) && block::test(V4, &other) != model::NUMBER
}

/// Block directories.
impl Lab {
    fn note_own_number(&mut self, call: &str, block: &[u8], refusal: u32) {
        if refusal == model::NUMBER && is_inside_itself(block) {
            self.cover.note(call, "own number stored");
        }
    }

    pub fn block_test(&mut self, block: &[u8]) {
        let want = block::test(V4, block);
        assert_eq!(
            yardstick::test(block),
            want,
            "the yardstick tests other rules"
        );
        self.call(
            "block_test",
            &(),
            &[block],
            |b| unsafe { raw::pzw_block_test(b[0].ptr(), b[0].len()) },
            want,
            block,
        );
        self.cover.answer("block_test", want);
        self.note_own_number("block_test", block, want);
        if want == 0 && block[16..24] == block[32..40] {
            self.cover.note("block_test", "parent is itself");
        }
    }

    pub fn block_lookup(&mut self, block: &[u8], name: &[u8]) {
        let want = block::lookup(V4, block, name);
        self.call(
            "block_lookup",
            &(),
            &[block, name],
            |b| {
                let (lent, name) = (&b[0], &b[1]);
                unsafe { raw::pzw_block_lookup(lent.ptr(), lent.len(), name.ptr(), name.len()) }
            },
            want,
            block,
        );
        self.cover.answer("block_lookup", want.refusal);
        self.note_own_number("block_lookup", block, want.refusal);
        match (want.refusal, want.compared) {
            (0, 2..) => self.cover.note("block_lookup", "found after 2 or more"),
            (13, 0) => self.cover.note("block_lookup", "absent after none"),
            (13, 2..) => self.cover.note("block_lookup", "absent after 2 or more"),
            _ => {}
        }
    }

    pub fn block_insert(&mut self, block: &[u8], name: &[u8], number: u64) -> Change {
        let want = block::insert(V4, block, name, number);
        self.call(
            "block_insert",
            &number,
            &[block, name],
            |b| {
                let (len, at) = (b[0].len(), b[0].mut_ptr());
                unsafe { raw::pzw_block_insert(at, len, b[1].ptr(), b[1].len(), number) }
            },
            want.refusal,
            &want.bytes,
        );
        self.changed("block_insert", &want);
        self.note_own_number("block_insert", block, want.refusal);
        let own = build::own_number(block);
        if want.refusal == model::ASKED && model::legal_name(V4, name) && number == own {
            self.cover.note("block_insert", "own number asked");
        }
        if want.refusal == 0 && name.len() == 255 {
            self.cover.note("block_insert", "name of 255");
        }
        if want.refusal == 0 && want.bytes[4..16] == [0; 12] {
            self.cover.note("block_insert", "leaves no gap");
        }
        want
    }

    pub fn block_remove(&mut self, block: &[u8], name: &[u8]) -> Change {
        let want = block::remove(V4, block, name);
        self.call(
            "block_remove",
            &(),
            &[block, name],
            |b| {
                let (len, at) = (b[0].len(), b[0].mut_ptr());
                unsafe { raw::pzw_block_remove(at, len, b[1].ptr(), b[1].len()) }
            },
            want.refusal,
            &want.bytes,
        );
        self.changed("block_remove", &want);
        self.note_own_number("block_remove", block, want.refusal);
        want
    }

    pub fn block_step(&mut self, block: &[u8], place: u64) -> model::Step {
        let want = block::step(V4, block, place);
        self.call(
            "block_step",
            &place,
            &[block],
            |b| unsafe { raw::pzw_block_step(b[0].ptr(), b[0].len(), place) },
            want,
            block,
        );
        self.stepped("block_step", want.refusal, want.seen);
        self.note_own_number("block_step", block, want.refusal);
        want
    }
}
