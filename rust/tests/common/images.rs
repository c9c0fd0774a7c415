//! The real structures under tests/images, as their index tells of them.

use std::fs;
use std::path::PathBuf;

/// A line of the index.
pub struct Image {
    pub files: Vec<String>,
    pub checks: Vec<Check>,
    pub contents: String,
}

/// A call and the answer of its tests; `size` is the block size that it is told.
#[derive(Clone, Debug)]
pub struct Check {
    pub call: String,
    pub size: u64,
    pub verdict: u32,
}

pub fn folder() -> PathBuf {
    PathBuf::from(env!("CARGO_MANIFEST_DIR")).join("tests/images")
}

pub fn read(file: &str) -> Vec<u8> {
    let path = folder().join(file);
    fs::read(&path).unwrap_or_else(|error| panic!("{}: {error}", path.display()))
}

pub fn read_text(file: &str) -> String {
    String::from_utf8(read(file)).expect("text")
}

pub fn index() -> Vec<Image> {
    let text = read_text("index.txt");
    let lines = text.lines().filter(|line| !line.starts_with('#'));
    lines.map(image).collect()
}

fn image(line: &str) -> Image {
    let columns: Vec<&str> = line.split(" | ").collect();
    assert_eq!(columns.len(), 4, "{line}");
    Image {
        files: columns[0].split(' ').map(str::to_string).collect(),
        checks: columns[1].split(", ").map(check).collect(),
        contents: columns[3].to_string(),
    }
}

/// "call number" or "call/size number".
fn check(text: &str) -> Check {
    let (call, verdict) = text
        .split_once(' ')
        .expect("a check is a call and a number");
    let (call, size) = call.split_once('/').unwrap_or((call, "0"));
    Check {
        call: call.to_string(),
        size: size.parse().expect("a block size"),
        verdict: verdict.parse().expect("a number"),
    }
}

/// The bytes of every structure that this call is tried on, with the size it is told.
pub fn of_call(call: &str) -> Vec<(Vec<u8>, u64)> {
    let mut all = Vec::new();
    for image in index() {
        for check in image.checks.iter().filter(|check| check.call == call) {
            all.push((read(&image.files[0]), check.size));
        }
    }
    all
}

/// The blocks of a room pair's file.
pub fn blocks(file: &str, size: u64) -> Vec<Vec<u8>> {
    let bytes = read(file);
    assert_eq!(bytes.len() as u64 % size, 0, "{file}");
    let blocks = bytes.chunks(size as usize);
    blocks.map(<[u8]>::to_vec).collect()
}
