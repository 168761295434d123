//! What all three implementations answer.

/// Document 01's number of a refusal, and what it carries, 0 for nothing.
#[derive(Clone, Copy, Debug, PartialEq)]
pub struct Refusal {
    pub number: u32,
    pub carried: u32,
}

pub type Result<T> = std::result::Result<T, Refusal>;

/// The answer's three cases.
#[derive(Clone, Copy, Debug, PartialEq)]
pub enum Answer<T> {
    Value(T),
    Absent,
    NotKnown,
}

/// A record's string, by its start, from the table's first byte, and its length, and the record's number.
#[derive(Clone, Copy, Debug, PartialEq)]
pub struct Text {
    pub start: usize,
    pub length: usize,
    pub record: usize,
}

/// What a lookup tells: its answer, and how many records it looked at after its check of the table.
#[derive(Clone, Copy, Debug, PartialEq)]
pub struct LookedUp {
    pub answer: Result<Text>,
    pub looked: usize,
}

/// A version number, and the number of the record whose string it stands in.
#[derive(Clone, Copy, Debug, PartialEq)]
pub struct Version {
    pub major: u16,
    pub minor: u16,
    pub record: usize,
}

/// Optical sizes, in points.
#[derive(Clone, Copy, Debug, PartialEq)]
pub enum Optical {
    Every,
    Upwards(f32),
    Between(f32, f32),
}

/// An entry of a 'name' table to write: its key, and where its text lies in the pool. As `gv_entry`.
#[repr(C)]
#[derive(Clone, Copy, Debug)]
pub struct Entry {
    pub platform: u16,
    pub encoding: u16,
    pub language: u16,
    pub name: u16,
    pub start: usize,
    pub length: u16,
}

/// A face as a slot of a rack holds it.
#[derive(Debug, PartialEq)]
pub struct Face {
    pub weight: u16,
    pub width: u16,
    pub sloped: bool,
    pub family: Vec<u8>,
}

/// What a request asks for.
#[derive(Debug)]
pub struct Request {
    pub family: Vec<u8>,
    pub weight: u32,
    pub width: u32,
    pub sloped: bool,
}

impl AsRef<Request> for Request {
    fn as_ref(&self) -> &Request {
        self
    }
}

/// The size written.
pub type Written = Result<usize>;

/// How many rows were written, or the side of a refusal, 0 for none, 1 left, 2 right, and the refusal.
pub type Compared = std::result::Result<usize, (u32, Refusal)>;

pub fn refuse<T>(number: u32) -> Result<T> {
    Err(Refusal { number, carried: 0 })
}

pub fn refuse_at<T>(number: u32, carried: usize) -> Result<T> {
    Err(Refusal {
        number,
        carried: carried as u32,
    })
}
