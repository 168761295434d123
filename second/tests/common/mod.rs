//! Builders and a number source shared by the tests.
#![allow(dead_code)]

use second::Refusal;

/// A refusal that carries nothing, as a result of any kind.
pub fn no<T>(number: u32) -> Result<T, Refusal> {
    Err(Refusal {
        number,
        carries: None,
    })
}

/// A refusal that carries a place, as a result of any kind.
pub fn no_at<T>(number: u32, place: u32) -> Result<T, Refusal> {
    Err(Refusal {
        number,
        carries: Some(place),
    })
}

/// A fixed sequence of numbers, the same in every run (xorshift).
pub struct Numbers(u64);

impl Numbers {
    pub fn new(seed: u64) -> Numbers {
        Numbers(seed.wrapping_mul(0x9E37_79B9_7F4A_7C15) | 1)
    }

    pub fn next(&mut self) -> u64 {
        self.0 ^= self.0 << 13;
        self.0 ^= self.0 >> 7;
        self.0 ^= self.0 << 17;
        self.0 >> 11
    }

    /// A number below `limit`.
    pub fn below(&mut self, limit: u64) -> u64 {
        self.next() % limit
    }

    /// One of the given values.
    pub fn pick<T: Copy>(&mut self, values: &[T]) -> T {
        values[self.below(values.len() as u64) as usize]
    }
}

/// A record to build: platform, encoding, language, name, length, offset.
pub type Entry = [u16; 6];

/// A 'name' table of format 0 with the storage right after the records.
pub fn name0(records: &[Entry], storage: &[u8]) -> Vec<u8> {
    let start = 6 + 12 * records.len();
    let mut bytes = words(&[0, records.len() as u16, start as u16]);
    for record in records {
        bytes.extend(words(record));
    }
    bytes.extend(storage);
    bytes
}

/// A 'name' table of format 1; tags are length and offset.
pub fn name1(records: &[Entry], tags: &[[u16; 2]], storage: &[u8]) -> Vec<u8> {
    let start = 8 + 12 * records.len() + 4 * tags.len();
    let mut bytes = words(&[1, records.len() as u16, start as u16]);
    for record in records {
        bytes.extend(words(record));
    }
    bytes.extend(words(&[tags.len() as u16]));
    for tag in tags {
        bytes.extend(words(tag));
    }
    bytes.extend(storage);
    bytes
}

/// 16-bit numbers as bytes.
pub fn words(numbers: &[u16]) -> Vec<u8> {
    numbers.iter().flat_map(|n| n.to_be_bytes()).collect()
}

/// A key and its string.
pub type Named<'a> = ((u16, u16, u16, u16), &'a [u8]);

/// A format 0 table from keys and their strings, in the order given.
pub fn named(strings: &[Named]) -> Vec<u8> {
    let mut storage = Vec::new();
    let mut records = Vec::new();
    for ((platform, encoding, language, name), string) in strings {
        records.push([
            *platform,
            *encoding,
            *language,
            *name,
            u16::try_from(string.len()).expect("a length has 16 bits"),
            u16::try_from(storage.len()).expect("an offset has 16 bits"),
        ]);
        storage.extend_from_slice(string);
    }
    name0(&records, &storage)
}

/// ASCII text with two bytes a character.
pub fn wide(text: &str) -> Vec<u8> {
    text.bytes().flat_map(|byte| [0, byte]).collect()
}

/// The size of an OS/2 table, written out once more for the tests.
pub const SIZES: [usize; 6] = [78, 86, 96, 96, 96, 100];

/// Document 01's first OS/2 table with some 16-bit numbers put at offsets and
/// zero bytes added up to the size of the version (at offset 0).
pub fn os2(numbers: &[(usize, u16)]) -> Vec<u8> {
    let mut bytes = vec![0; 100];
    put(&mut bytes, 4, 400);
    put(&mut bytes, 6, 5);
    for &(offset, number) in numbers {
        put(&mut bytes, offset, number);
    }
    let version = usize::from(u16::from_be_bytes([bytes[0], bytes[1]]));
    bytes.truncate(SIZES[version.min(5)]);
    bytes
}

/// As [`os2`], version 5 with optical sizes that rule 7 lets through.
pub fn os2_version_5(lower: u16, upper: u16) -> Vec<u8> {
    os2(&[(0, 5), (96, lower), (98, upper)])
}

/// Puts a 16-bit number at an offset.
pub fn put(bytes: &mut [u8], offset: usize, number: u16) {
    bytes[offset..offset + 2].copy_from_slice(&number.to_be_bytes());
}
