//! A worked row: three leaves of one key, a branch of two of them, and the third inserted. The
//! first leaf takes a chunk, which has room for all. That request may be refused once.
use judy_arena::Arena;
use judy_leaf::Put;
use judy_refs::Ref;
use std::alloc::Global;
use std::process::Abort;
use std::test::Fail;

/// The words at the front of a node's block.
fn starts_with(rt: &impl Abort, arena: &Arena, node: Ref, wanted: [u64; 4]) -> Result<(), Fail> {
    let block = node.block().ok_or("a block")?;
    assert!(rt; 4 <= arena.size(block));
    assert_eq!(rt; &arena.words(block)[..4], wanted.as_slice());
    Ok(())
}

/// Makes a leaf of one key, and checks that the key is present when it is inserted again. If memory
/// is refused, nothing has changed, and a second try succeeds.
fn leaf_of(rt: &impl Abort, alloc: Global, arena: &mut Arena, key: u64) -> Result<Ref, Fail> {
    judy_leaf::laws::only_nothing_is_empty();
    let words = arena.live_words();
    let refusals = arena.refusals();
    let mut answer = judy_leaf::insert(false, alloc, arena, Ref::EMPTY, key, 0);
    if answer == Put::NoMemory {
        assert_eq!(rt; arena.live_words(), words, "words after a refusal");
        assert_eq!(rt; arena.refusals(), refusals.saturating_add(1));
        answer = judy_leaf::insert(false, alloc, arena, Ref::EMPTY, key, 0);
    }
    let Put::Done(leaf) = answer else {
        return Err("a leaf".into());
    };
    assert!(rt; judy_leaf::insert(false, alloc, arena, leaf, key, 0) == Put::Present(0));
    assert!(rt; leaf.word() != 0);
    Ok(leaf)
}

#[test]
fn leaf_and_branch(rt: HostRuntime) -> Result<(), Fail> {
    let alloc = rt.alloc();
    let mut arena = Arena::new(alloc);
    let a = leaf_of(&rt, alloc, &mut arena, 5)?;
    starts_with(&rt, &arena, a, [1, 5, 0, 0])?;
    assert_eq!(rt; arena.live_words(), 4);
    let b = leaf_of(&rt, alloc, &mut arena, 265)?;
    let c = leaf_of(&rt, alloc, &mut arena, 600)?;
    assert!(rt; a.word() != 0 && b.word() != 0 && c.word() != 0);
    let two = judy_branch::make(alloc, &mut arena, 6, 0, &[(0, a), (1, b)], 2)?;
    starts_with(&rt, &arena, two, [3074, 0, 2, 256])?;
    assert!(rt; judy_branch::child(&arena, two, 2).is_none());
    let three = judy_branch::put_child(alloc, &mut arena, two, 2, c, 3)?;
    starts_with(&rt, &arena, three, [3075, 0, 3, 256 + 2 * 65_536])?;
    assert_eq!(rt; arena.live_words(), 20);
    Ok(())
}
