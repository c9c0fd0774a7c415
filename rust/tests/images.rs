//! Real structures: verdicts as the index gives them, names, numbers, tags and values as xfs_db lists them,
//! and room as the kernel found it.

mod common;

use common::images::{self, Check, Image};
use common::V4;
use pelunziwa::{attr, block, inode, model, sfdir, Found, Refusal};
use std::collections::{BTreeMap, BTreeSet};
use std::fs;

type Counts = BTreeMap<&'static str, usize>;

fn code<T>(result: Result<T, Refusal>) -> u32 {
    result.err().map_or(0, Refusal::number)
}

#[test]
fn index() {
    let mut counts = Counts::new();
    for image in images::index() {
        for check in &image.checks {
            try_check(&image, check, &mut counts);
        }
    }
    println!("{counts:?}");
    let wanted: Counts = [
        ("inodes", 128),
        ("inodes told in full", 38),
        ("short-form directories", 93),
        ("short-form directories listed", 50),
        ("blocks", 40),
        ("blocks listed", 40),
        ("attribute forks", 82),
        ("attribute forks listed", 18),
        ("room done", 46),
        ("room refused", 40),
    ]
    .into();
    assert_eq!(counts, wanted);
}

fn try_check(image: &Image, check: &Check, counts: &mut Counts) {
    let file = &image.files[0];
    let bytes = images::read(file);
    let size = check.size;
    let (library, model) = match check.call.as_str() {
        "inode" => (
            code(inode::test(&bytes)),
            model::inode::test(V4, &bytes).refusal,
        ),
        "sfdir" => (
            code(sfdir::test(&bytes, size)),
            model::sfdir::test(V4, &bytes, size),
        ),
        "attr" => (code(attr::test(&bytes)), model::attr::test(V4, &bytes)),
        "block" => (code(block::test(&bytes)), model::block::test(V4, &bytes)),
        "room" => return rooms(image, check, counts),
        call => panic!("{file}: no such check: {call}"),
    };
    assert_eq!(library, check.verdict, "{file}: {check:?}");
    assert_eq!(model, check.verdict, "{file}: {check:?}, model");
    for what in try_contents(image, check, &bytes) {
        *counts.entry(what).or_default() += 1;
    }
}

/// Holds the contents to the index and to the list beside the file; says what could be tried.
fn try_contents(image: &Image, check: &Check, bytes: &[u8]) -> Vec<&'static str> {
    let file = &image.files[0];
    let list = match check.verdict {
        0 => list_of(file),
        _ => None,
    };
    match (check.call.as_str(), dir_list(&list), attr_list(&list)) {
        ("inode", ..) if core(image, bytes) => vec!["inodes", "inodes told in full"],
        ("inode", ..) => vec!["inodes"],
        ("sfdir", Some(list), _) => {
            listed_sfdir(file, bytes, check.size, &list);
            vec!["short-form directories", "short-form directories listed"]
        }
        ("sfdir", ..) => vec!["short-form directories"],
        ("attr", _, Some(list)) => {
            listed_attrs(file, bytes, &list);
            vec!["attribute forks", "attribute forks listed"]
        }
        ("attr", ..) => vec!["attribute forks"],
        (_, Some(list), _) => {
            listed_block(file, bytes, &list);
            vec!["blocks", "blocks listed"]
        }
        _ => vec!["blocks"],
    }
}

/// All entries of a short form under a wide parent taken out: size and used bytes are those that Linux wrote for
/// an empty directory under the same parent.
#[test]
fn empty_under_a_wide_parent() {
    let mut inode = images::read("wide-v4-wideparent-one-wide.inode");
    let empty = images::read("wide-v4-wideparent-empty.inode");
    for name in [b"w", b"a"] {
        assert_eq!(sfdir::remove(&mut inode, 4096, name), Ok(()));
        assert_eq!(sfdir::test(&inode, 4096), Ok(()));
    }
    assert_eq!(inode[56..64], empty[56..64]);
    assert_eq!(inode[100..110], empty[100..110]);
}

/// Every file is in the index, and every one of the index is there.
#[test]
fn files() {
    let mut indexed: BTreeSet<String> = ["index.txt".to_string()].into();
    for image in images::index() {
        for file in image.files {
            let list = format!("{file}.list");
            if images::folder().join(&list).exists() {
                indexed.insert(list);
            }
            assert!(indexed.insert(file.clone()), "{file} is there twice");
        }
    }
    let files = fs::read_dir(images::folder()).expect("the folder");
    let name = |file: std::io::Result<fs::DirEntry>| file.unwrap().file_name();
    let there: BTreeSet<String> = files.map(|f| name(f).into_string().unwrap()).collect();
    assert_eq!(there, indexed);
}

/// The fields that the index tells of an inode, all of them or version and fork only:
/// "mode 100644 version 2 format 2 size 12288 forkoff 0 aformat 2".
fn core(image: &Image, bytes: &[u8]) -> bool {
    let core = inode::test(bytes).expect("an inode");
    let words: Vec<&str> = image.contents.split([' ', ',']).collect();
    let fields: BTreeMap<&str, &str> = words.windows(2).map(|two| (two[0], two[1])).collect();
    let told = |field: &str, radix: u32| {
        let text = fields.get(field)?;
        u64::from_str_radix(text, radix).ok()
    };
    assert_eq!(core.magic, 0x494e);
    let whole = fields.contains_key("mode");
    let handed_out = [
        ("mode", 8, u64::from(core.mode)),
        ("version", 10, u64::from(core.version)),
        ("forkoff", 10, u64::from(core.forkoff)),
        ("aformat", 10, u64::from(core.aformat)),
        ("format", 10, u64::from(core.format)),
        // The last size told is the file's; the one before is that of the inode.
        ("size", 10, core.size),
    ];
    for (field, radix, value) in handed_out {
        let told = told(field, radix);
        let must = whole || ["version", "forkoff", "aformat"].contains(&field) && told.is_some();
        assert!(!must || told == Some(value), "{:?} {field}", image.files);
    }
    whole
}

/// The lines of the list beside a file, if there is one, as words.
fn list_of(file: &str) -> Option<Vec<Vec<String>>> {
    let path = images::folder().join(format!("{file}.list"));
    let text = fs::read_to_string(path).ok()?;
    let words = |line: &str| line.split_whitespace().map(str::to_string).collect();
    Some(text.lines().map(words).collect())
}

fn unhex(text: &str) -> Vec<u8> {
    let pairs = text.as_bytes().chunks(2);
    let byte = |pair: &[u8]| u8::from_str_radix(std::str::from_utf8(pair).unwrap(), 16).unwrap();
    pairs.map(byte).collect()
}

#[derive(Debug, PartialEq)]
struct Listed {
    tag: u64,
    number: u64,
    hash: u32,
    name: Vec<u8>,
}

/// A directory's list, by rising tag.
fn dir_list(list: &Option<Vec<Vec<String>>>) -> Option<Vec<Listed>> {
    let lines = list.as_ref()?;
    if lines.iter().any(|words| words.len() != 6) {
        return None;
    }
    let listed = |words: &Vec<String>| Listed {
        tag: words[0].parse().unwrap(),
        number: words[1].parse().unwrap(),
        hash: u32::from_str_radix(&words[2], 16).unwrap(),
        name: unhex(&words[3]),
    };
    Some(lines.iter().map(listed).collect())
}

type Attr = (Vec<u8>, u32, Vec<u8>);

/// An attribute list; an empty value has no word.
fn attr_list(list: &Option<Vec<Vec<String>>>) -> Option<Vec<Attr>> {
    let lines = list.as_ref()?;
    if lines.iter().any(|words| words.len() > 3) {
        return None;
    }
    let listed = |words: &Vec<String>| {
        let value = words.get(2).map_or(Vec::new(), |word| unhex(word));
        let flags = u32::from_str_radix(&words[1], 16).unwrap();
        (unhex(&words[0]), flags, value)
    };
    Some(lines.iter().map(listed).collect())
}

fn entries<'a>(walk: impl Iterator<Item = Result<pelunziwa::Entry<'a>, Refusal>>) -> Vec<Listed> {
    let listed = |entry: pelunziwa::Entry| Listed {
        tag: entry.tag,
        number: entry.number,
        hash: pelunziwa::hash(entry.name),
        name: entry.name.to_vec(),
    };
    walk.map(|entry| listed(entry.expect("a step"))).collect()
}

fn listed_block(file: &str, bytes: &[u8], list: &[Listed]) {
    assert_eq!(entries(block::entries(bytes)), list, "{file}");
    for entry in list {
        let found = Found {
            number: entry.number,
            tag: entry.tag,
            compared: model::block::lookup(V4, bytes, &entry.name).compared,
        };
        assert_eq!(block::lookup(bytes, &entry.name), Ok(found), "{file}");
    }
}

/// A short form stores neither "." nor "..", which xfs_db lists first; ".." is found as the parent, with tag 0.
fn listed_sfdir(file: &str, bytes: &[u8], size: u64, list: &[Listed]) {
    assert_eq!(entries(sfdir::entries(bytes, size)), list[2..], "{file}");
    for entry in &list[1..] {
        let found = Found {
            number: entry.number,
            tag: if entry.name == b".." { 0 } else { entry.tag },
            compared: 0,
        };
        assert_eq!(sfdir::lookup(bytes, size, &entry.name), Ok(found), "{file}");
    }
    assert_eq!(sfdir::lookup(bytes, size, b"."), Err(Refusal::Fixed));
}

fn listed_attrs(file: &str, bytes: &[u8], list: &[Attr]) {
    let stored: Vec<Attr> = attr::entries(bytes)
        .map(|entry| entry.expect("a step"))
        .map(|entry| (entry.name.to_vec(), entry.flags, entry.value.to_vec()))
        .collect();
    assert_eq!(stored, list, "{file}");
    for (name, flags, value) in list {
        let found = attr::lookup(bytes, name, *flags).expect("a listed attribute");
        assert_eq!(found, value, "{file}");
        // The value is handed back in place.
        assert!(bytes.as_ptr_range().contains(&found.as_ptr()), "{file}");
    }
}

/// Inserts as the kernel made them: done where it kept the block, refused with 15 where it left block form.
fn rooms(image: &Image, check: &Check, counts: &mut Counts) {
    let before = images::blocks(&image.files[0], check.size);
    let after = images::blocks(&image.files[1], check.size);
    let told = image.files.get(2).map(|file| told_rooms(file));
    let mut tried = 0;
    for (at, (block, kernel)) in before.iter().zip(&after).enumerate() {
        let kept = kernel.iter().any(|&byte| byte != 0);
        let (name, number) = match &told {
            Some(told) => {
                let (len, refusal, number) = told[at];
                assert_eq!(refusal == 0, kept, "{:?} {at}", image.files);
                (vec![b'N'; len], number)
            }
            None if kept => added(block, kernel),
            None => continue,
        };
        tried += 1;
        let done = try_room(block, kernel, &name, number, kept);
        *counts.entry(done).or_default() += 1;
    }
    assert_eq!(tried, check.verdict, "{:?}", image.files);
}

/// Each block's line: which block, the name's length, 0 or 15, the inode number.
fn told_rooms(file: &str) -> Vec<(usize, u32, u64)> {
    let text = images::read_text(file);
    let lines = text.lines().filter(|line| !line.starts_with('#'));
    let line = |(at, line): (usize, &str)| {
        let words: Vec<&str> = line.split_whitespace().collect();
        assert_eq!(words[0].parse(), Ok(at), "{file}");
        let number = |at: usize| words[at].parse::<u64>().unwrap();
        (number(1) as usize, number(2) as u32, number(3))
    };
    lines.enumerate().map(line).collect()
}

fn held(block: &[u8]) -> BTreeMap<Vec<u8>, u64> {
    let entries = entries(block::entries(block)).into_iter();
    entries.map(|entry| (entry.name, entry.number)).collect()
}

/// The one name that the kernel put in.
fn added(before: &[u8], after: &[u8]) -> (Vec<u8>, u64) {
    let old = held(before);
    let mut new = held(after);
    new.retain(|name, _| !old.contains_key(name));
    assert_eq!(new.len(), 1);
    new.pop_first().expect("one name")
}

fn try_room(before: &[u8], kernel: &[u8], name: &[u8], number: u64, kept: bool) -> &'static str {
    let mut block = before.to_vec();
    let answer = block::insert(&mut block, name, number);
    if kept {
        assert_eq!(answer, Ok(()));
        assert_eq!(held(&block), held(kernel));
        assert_eq!(block::test(kernel), Ok(()));
        "room done"
    } else {
        assert_eq!(answer, Err(Refusal::NoRoom));
        assert_eq!(block, before);
        "room refused"
    }
}
