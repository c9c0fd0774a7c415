//! Why a call was refused.

use std::fmt;

/// The paper's refusals; the discriminant is the number.
#[derive(Clone, Copy, Debug, PartialEq, Eq, PartialOrd, Ord, Hash)]
#[repr(u32)]
pub enum Refusal {
    /// An inode's, a block's or the told block length is not one allowed.
    Size = 1,
    /// The magic is not that of an inode or a block directory.
    Magic = 2,
    /// The inode is not of the wanted version, type or format.
    Kind = 3,
    /// A stored total does not fit.
    Span = 4,
    /// The records do not fill the span.
    Tile = 5,
    /// A stored name breaks the rules.
    Name = 6,
    /// A stored inode number is out of range, an entry of a block but "." and ".." has the number of ".", or an attribute's flags are wrong.
    Number = 7,
    /// Stored counts or the index disagree with the entries.
    Index = 8,
    /// The best-gap table is wrong.
    Best = 9,
    /// A name is stored twice.
    Twice = 10,
    /// The caller's name, number, flags or walk place are not legal, or a block is asked to take the number of its ".".
    Asked = 11,
    /// "." or ".." inserted or removed, or "." looked up in a short form.
    Fixed = 12,
    /// No such live entry.
    Absent = 13,
    /// The name to insert is there.
    Exists = 14,
    /// No room by the room rules.
    NoRoom = 15,
    // 16 is retired: it is not given, and not used again.
}

impl Refusal {
    /// By number: the paper's name, and a sentence. include/pelunziwa.h has the same words for C.
    const ALL: [(Refusal, &'static str, &'static str); 15] = [
        (
            Refusal::Size,
            "SIZE",
            "the length of an inode or a block, or the block length told, is not one allowed",
        ),
        (
            Refusal::Magic,
            "MAGIC",
            "the magic is not that of an inode or a directory block",
        ),
        (
            Refusal::Kind,
            "KIND",
            "the inode is not of the wanted version, type or format",
        ),
        (Refusal::Span, "SPAN", "a stored total does not fit"),
        (Refusal::Tile, "TILE", "the records do not fill their span"),
        (Refusal::Name, "NAME", "a stored name breaks the rules"),
        (
            Refusal::Number,
            "NUMBER",
            "a stored inode number is out of range or that of the directory itself, or an attribute's flags are wrong",
        ),
        (
            Refusal::Index,
            "INDEX",
            "stored counts or the index disagree with the entries",
        ),
        (Refusal::Best, "BEST", "the best-gap table is wrong"),
        (Refusal::Twice, "TWICE", "a name is stored twice"),
        (
            Refusal::Asked,
            "ASKED",
            "the name, number, flags or walk place asked for is not legal",
        ),
        (
            Refusal::Fixed,
            "FIXED",
            "'.' and '..' are never inserted or removed, and a short form does not look '.' up",
        ),
        (Refusal::Absent, "ABSENT", "there is no such live entry"),
        (Refusal::Exists, "EXISTS", "the name is there already"),
        (Refusal::NoRoom, "NOROOM", "there is no room for the entry"),
    ];

    /// The refusal with this number. 16 is retired, and no refusal's.
    pub fn from_number(number: u32) -> Option<Refusal> {
        let row = Refusal::ALL.iter().find(|row| row.0.number() == number);
        row.map(|row| row.0)
    }

    fn row(self) -> &'static (Refusal, &'static str, &'static str) {
        let row = Refusal::ALL.iter().find(|row| row.0 == self);
        row.expect("each refusal has its row")
    }

    /// The paper's number.
    pub fn number(self) -> u32 {
        self as u32
    }

    /// The paper's name.
    pub fn name(self) -> &'static str {
        self.row().1
    }

    /// What is wrong, in a sentence.
    pub fn sentence(self) -> &'static str {
        self.row().2
    }

    /// The library's number, 0 for done, as a result.
    pub(crate) fn check(number: u32) -> Result<(), Refusal> {
        match number {
            0 => Ok(()),
            _ => Err(Refusal::from_number(number).expect("the library gives numbers of the table")),
        }
    }
}

impl fmt::Display for Refusal {
    fn fmt(&self, out: &mut fmt::Formatter<'_>) -> fmt::Result {
        let (number, name) = (self.number(), self.name());
        write!(out, "refused {number} ({name}): {}", self.sentence())
    }
}

impl std::error::Error for Refusal {}
