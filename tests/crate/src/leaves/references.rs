//! References, compared with words written out by hand.
use crate::checks::same;
use judy_refs::{Kind, Ref};
use std::process::Abort;
use std::test::Fail;

const KINDS: [(Kind, u64); 8] = [
    (Kind::LinearLeaf, 0x1_0000_0000),
    (Kind::BitmapLeaf, 0x2_0000_0000),
    (Kind::FullLeaf, 0x3_0000_0000),
    (Kind::LinearBranch, 0x4_0000_0000),
    (Kind::BitmapBranch, 0x5_0000_0000),
    (Kind::FullBranch, 0x6_0000_0000),
    (Kind::Suffix, 0x7_0000_0000),
    (Kind::Bucket, 0x8_0000_0000),
];

/// Checks the reference of a kind to the block of a number.
fn refers(rt: &impl Abort, kind: Kind, above: u64, number: u32) -> Result<(), Fail> {
    let word = above | u64::from(number);
    let reference = Ref::read(word).ok_or("a reference")?;
    let block = reference.block().ok_or("a block")?;
    same(rt, block.number(), number);
    same(rt, Ref::of(kind, block), reference);
    same(rt, reference.word(), word);
    same(rt, Ref::known(word), reference);
    same(rt, reference.kind(), Some(kind));
    Ok(())
}

#[test]
fn a_reference_is_its_kind_and_its_number(rt: HostRuntime) -> Result<(), Fail> {
    for (kind, above) in &KINDS {
        for number in [0, 1, 4_294_967_295u32] {
            refers(&rt, *kind, *above, number)?;
        }
    }
    Ok(())
}

#[test]
fn nothing_is_referred_to_by_0(rt: HostRuntime) {
    same(&rt, Ref::read(0), Some(Ref::EMPTY));
    same(&rt, Ref::EMPTY.word(), 0);
    same(&rt, Ref::EMPTY.kind(), None);
    same(&rt, Ref::EMPTY.block(), None);
}

#[test]
fn other_words_are_no_references(rt: HostRuntime) {
    for word in [1, 4_294_967_295, 0x9_0000_0000, 0x10_0000_0000, u64::MAX] {
        same(&rt, Ref::read(word), None);
    }
}
