//! Insertions of words into arrays of words, one for each way that such an array grows.

use crate::refusals::grown::{Entries, Trial};

/// An insertion of a word.
#[derive(Clone, Copy, Debug, PartialEq, Eq)]
pub(crate) enum Case {
    /// Of the first key.
    First,
    /// Of a fourth key into a linear leaf.
    Fourth,
    /// Of a key that turns a linear leaf of 31 keys into a bitmap leaf, in its block.
    Bitmap,
    /// Of the 59th key of a bitmap leaf.
    Wider,
    /// Of a key that splits a leaf of 31 keys into 32 leaves.
    Split,
    /// Of a key that differs from a leaf's keys in the bytes that these share.
    AboveLeaf,
    /// Of a key that differs from a branch's keys in the bytes that these share.
    AboveBranch,
    /// Of the fifth child of a branch.
    FifthChild,
    /// Of the ninth child of a branch, which becomes a bitmap branch.
    NinthChild,
    /// Of the tenth child of a branch.
    TenthChild,
    /// Of the 128th child of a branch, which becomes a full branch.
    WideChild,
}

/// The value of a key in these tests, if there are values.
fn value_of(key: u64) -> u64 {
    key ^ 165
}

/// The key of a number.
pub(crate) fn key(case: Case, number: u64) -> u64 {
    match case {
        Case::First | Case::Fourth => number.wrapping_mul(1_000_003),
        Case::Bitmap | Case::Wider => number.wrapping_add(512),
        Case::Split => number.wrapping_mul(1 << 56),
        _ if number < 32 => number,
        Case::AboveBranch if number < 33 => 1 << 40,
        Case::AboveLeaf | Case::AboveBranch => 1 << 63,
        _ => number.wrapping_sub(31).wrapping_mul(256),
    }
}

/// How many keys there are before.
fn before(case: Case) -> u64 {
    match case {
        Case::First => 0,
        Case::Fourth => 3,
        Case::Bitmap | Case::Split => 31,
        Case::Wider => 58,
        Case::AboveLeaf => 32,
        Case::AboveBranch => 33,
        Case::FifthChild => 35,
        Case::NinthChild => 39,
        Case::TenthChild => 40,
        Case::WideChild => 158,
    }
}

/// The sizes of the blocks that the insertion takes, with values or without.
fn sizes(case: Case, values: bool) -> &'static [usize] {
    match case {
        Case::First => &[4],
        Case::Fourth if values => &[16],
        Case::Fourth => &[8],
        Case::Wider if values => &[128],
        Case::Bitmap | Case::Wider => &[],
        Case::Split => &[
            4, 4, 8, 4, 4, 4, 16, 4, 4, 16, 32, 4, 4, 4, 4, 4, 4, 4, 4, 4, 64,
        ],
        Case::AboveLeaf | Case::AboveBranch => &[4, 8],
        Case::FifthChild | Case::NinthChild => &[4, 16],
        Case::TenthChild => &[4, 32],
        Case::WideChild => &[4, 512],
    }
}

/// The value of a key, or 0 without values.
pub(crate) fn given(values: bool, key: u64) -> u64 {
    if values { value_of(key) } else { 0 }
}

/// The insertion of a case, with values or without.
pub(crate) fn trial(case: Case, values: bool) -> Trial {
    Trial {
        entries: Entries::Words(case, values),
        before: before(case),
        sizes: sizes(case, values),
    }
}
