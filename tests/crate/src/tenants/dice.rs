//! Random calls, the same for the same seed.

use crate::calls::{
    Fields, OF_KEYS, OF_SETS, OF_STRINGS, OF_WORDS, bytes, drawn, long, one, string,
};
use judy_model::{ArraysFrom, Call, Kind, Name, Operation};
use std::test::Fail;

const MAX: u64 = 18_446_744_073_709_551_615;

/// The words to draw from: both ends, the edges of bytes, and consecutive words.
static WORDS: [u64; 16] = [
    0,
    1,
    2,
    3,
    4,
    5,
    254,
    255,
    256,
    257,
    65_536,
    4_294_967_296,
    MAX - 3,
    MAX - 2,
    MAX - 1,
    MAX,
];

/// The strings to draw from: prefixes of one another, the edges of words of 8 bytes, and both ends
/// of the order.
static STRINGS: [&[u8]; 16] = [
    b"",
    b"\x01",
    b"a",
    b"abcdefg",
    b"abcdefgh",
    b"abcdefghi",
    b"abcdefghijklmno",
    b"abcdefghijklmnop",
    b"abcdefghijklmnopq",
    b"abcdefghijklmnopqrstuvwxyz0123456789",
    b"abcdefghijklmnopqrstuvwxyz0123456788",
    b"abcdefghijklmnoz",
    b"abcdefgz",
    b"\x7f",
    b"\x80",
    b"\xff\xff\xff\xff\xff\xff\xff\xff\xff\xff\xff\xff\xff\xff\xff\xff\xff",
];

/// The byte keys to draw from: zeros of different lengths, the edges of words, and keys that are
/// also strings.
static KEYS: [&[u8]; 8] = [
    b"",
    b"\x00",
    b"\x00\x00",
    b"a",
    b"\x00\x00\x00\x00\x00\x00\x00\x00",
    b"abcdefgh\x00",
    b"abcdefghijklmnop",
    b"abcdefghijklmnopqrstuvwxyz0123456789abcdefghijklmnopqrstuvwxyz0123456789",
];

/// How many entries a search asks for. 0: one, without a number.
static MOST: [u16; 4] = [0, 0, 3, 65_535];

/// A generator of random numbers. Its state is one number.
#[derive(Clone, Copy)]
pub(crate) struct Dice {
    seed: u64,
}

impl Dice {
    pub(crate) fn new(seed: u64) -> Dice {
        Dice { seed }
    }

    /// A number below this one.
    pub(crate) fn roll(&mut self, sides: u64) -> u64 {
        self.seed = self
            .seed
            .wrapping_mul(6_364_136_223_846_793_005)
            .wrapping_add(1_442_695_040_888_963_407);
        (self.seed >> 33) % sides
    }

    /// The number after the key: the end of a range, what is added, or a value. Some sums are past the greatest
    /// word, and half of the values recur.
    fn number(&mut self, operation: Operation) -> u64 {
        match (operation, self.roll(2)) {
            (Operation::Count | Operation::Pop | Operation::Cut, _) => {
                WORDS[self.roll(16) as usize]
            }
            (Operation::Add, 0) => MAX.wrapping_sub(self.roll(1_000_000)),
            (_, 0) => self.roll(3),
            _ => self.roll(1_000_000),
        }
    }

    /// The fields of a call of this operation. A fourth of the insertions has no value, and a fourth of the
    /// removals has one.
    fn fields(&mut self, operation: Operation, keys: &[&'static [u8]]) -> Fields {
        let word = WORDS[self.roll(16) as usize];
        let rank = self.roll(16);
        Fields {
            index: if operation == Operation::Nth {
                rank
            } else {
                word
            },
            key: keys[self.roll(keys.len() as u64) as usize],
            number: self.number(operation),
            other: self.roll(3),
            most: MOST[self.roll(4) as usize],
            stores: (self.roll(4) > 0) != (operation == Operation::Remove),
        }
    }

    /// A call of a set of this name.
    fn one(&mut self, name: Name) -> Result<Call<'static>, Fail> {
        let operation = drawn(&OF_SETS, self.roll(1 << 20));
        let call = one(operation, self.fields(operation, &KEYS));
        Ok(Call::One(name, call.ok_or("a call of a set")?))
    }

    /// Of a JudyL.
    fn long(&mut self, name: Name) -> Result<Call<'static>, Fail> {
        let operation = drawn(&OF_WORDS, self.roll(1 << 20));
        let call = long(operation, self.fields(operation, &KEYS));
        Ok(Call::Long(name, call.ok_or("a call of a JudyL")?))
    }

    /// Of a JudySL.
    fn strings(&mut self, name: Name) -> Result<Call<'static>, Fail> {
        let operation = drawn(&OF_STRINGS, self.roll(1 << 20));
        let call = string(operation, self.fields(operation, &STRINGS));
        Ok(Call::Str(name, call.ok_or("a call of a JudySL")?))
    }

    /// Of a JudyHS.
    fn bytes(&mut self, name: Name) -> Result<Call<'static>, Fail> {
        let operation = drawn(&OF_KEYS, self.roll(1 << 20));
        let call = bytes(operation, self.fields(operation, &KEYS));
        Ok(Call::Bytes(name, call.ok_or("a call of a JudyHS")?))
    }

    /// The intersection of the sets of these names.
    fn intersection(&mut self, name: Name, other: Name) -> Call<'static> {
        let word = WORDS[self.roll(16) as usize];
        Call::Intersect(name, other, word, 1 + self.roll(4) as u16)
    }

    /// A list of arrays, from the first one or from behind an array of this name.
    fn names(&mut self, name: Name) -> Call<'static> {
        let from = match self.roll(8) {
            0..=3 => ArraysFrom::First,
            4 => ArraysFrom::Behind(Kind::One, name),
            5 => ArraysFrom::Behind(Kind::Long, name),
            6 => ArraysFrom::Behind(Kind::Str, name),
            _ => ArraysFrom::Behind(Kind::Bytes, name),
        };
        Call::Names(from, 1 + self.roll(4) as u16)
    }

    /// A call of an array of the first name, or of the sets of both, or of the tenant.
    pub(crate) fn call(&mut self, name: Name, other: Name) -> Result<Call<'static>, Fail> {
        match self.roll(20) {
            0..=4 => self.one(name),
            5..=9 => self.long(name),
            10..=13 => self.strings(name),
            14..=16 => self.bytes(name),
            17 => Ok(self.intersection(name, other)),
            18 => Ok(self.names(name)),
            _ => Ok(Call::Used),
        }
    }
}
