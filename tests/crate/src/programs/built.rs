//! Scripts that are too long to write down.
use crate::checks::same;
use crate::programs::rows::{TABLE, add, check, check_bob};
use std::alloc::{AllocError, Global};
use std::process::Abort;
use std::test::Fail;

// Appends the line `J1S a index`, and the reply `1`.
fn set_one(alloc: Global, script: &mut String, want: &mut String, index: u64) -> Result<(), Fail> {
    let line = format!(in alloc; "J1S a {index}\n")?;
    script.push_str(line.as_str())?;
    want.push_str("1\n")?;
    Ok(())
}

// Appends `count` such lines, where the index begins at `from` and grows by `step`.
fn set_all(
    alloc: Global,
    script: &mut String,
    want: &mut String,
    from: u64,
    step: u64,
    count: u64,
) -> Result<(), Fail> {
    let mut index = from;
    for _ in 0..count {
        set_one(alloc, script, want, index)?;
        index = index.saturating_add(step);
    }
    Ok(())
}

// Sets these indexes as bob, then sends these lines and expects these replies.
fn check_sets(
    rt: &impl Abort,
    alloc: Global,
    name: &str,
    from: u64,
    step: u64,
    count: u64,
    lines: &str,
    replies: &str,
) -> Result<(), Fail> {
    let mut script = String::new(alloc);
    let mut want = String::new(alloc);
    set_all(alloc, &mut script, &mut want, from, step, count)?;
    script.push_str(lines)?;
    want.push_str(replies)?;
    check_bob(rt, alloc, name, script.as_str(), want.as_str())
}

#[test]
fn a_full_leaf(rt: HostRuntime) -> Result<(), Fail> {
    check_sets(
        &rt,
        rt.alloc(),
        "a full leaf",
        0,
        1,
        256,
        "J1FE a 0\nJ1U a 128\nJ1FE a 0\nJ1C a 0 255\n",
        "1 256\n1\n1 128\nN 255\nWORDS 8\n",
    )
}

#[test]
fn shared_bytes(rt: HostRuntime) -> Result<(), Fail> {
    check_sets(
        &rt,
        rt.alloc(),
        "shared bytes",
        4096,
        1,
        32,
        "J1T a 31\nJ1F a 0\nJ1C a 0 4111\nJ1L a 4095\n",
        "0\n1 4096\nN 16\n0\nWORDS 8\n",
    )
}

#[test]
fn a_wide_branch(rt: HostRuntime) -> Result<(), Fail> {
    check_sets(
        &rt,
        rt.alloc(),
        "a wide branch",
        0,
        256,
        129,
        "J1C a 0 -1\nJ1BC a 129\nJ1P a 32768\nJ1FE a 0\n",
        "N 129\n1 32768\n1 32512\n1 1\nWORDS 1028\n",
    )
}

#[test]
fn the_top_of_the_range(rt: HostRuntime) -> Result<(), Fail> {
    check_sets(
        &rt,
        rt.alloc(),
        "the top of the range",
        18446744073709551360,
        1,
        256,
        "J1C a 0 -1\nJ1FE a 18446744073709551360\nJ1NE a 18446744073709551359\nJ1LE a -1\n",
        "N 256\n0\n0\n1 18446744073709551359\nWORDS 8\n",
    )
}

// Appends a line for each of 300 sets, which sets an index, and the reply `1` for each.
fn set_each(alloc: Global, script: &mut String, want: &mut String) -> Result<(), Fail> {
    for n in 0..300u64 {
        let line = format!(in alloc; "J1S n{n} 1\n")?;
        script.push_str(line.as_str())?;
        want.push_str("1\n")?;
    }
    Ok(())
}

#[test]
fn many_names(rt: HostRuntime) -> Result<(), Fail> {
    let mut script = String::new(rt.alloc());
    let mut want = String::new(rt.alloc());
    set_each(rt.alloc(), &mut script, &mut want)?;
    script.push_str("J1T n299 1\nJ1FA n0\nJ1S n0 1\n")?;
    want.push_str("1\nN 1\n1\nWORDS 1200\n")?;
    check_bob(
        &rt,
        rt.alloc(),
        "many names",
        script.as_str(),
        want.as_str(),
    )
}

// Appends a line of this many letters.
fn add_letters(script: &mut String, len: usize) -> Result<(), AllocError> {
    for _ in 0..len {
        script.push('A')?;
    }
    script.push('\n')
}

// A line of 4,096 letters, and lines that are longer.
#[test]
fn long_lines(rt: HostRuntime) -> Result<(), Fail> {
    let mut script = String::new(rt.alloc());
    for len in [4096usize, 4097, 9000] {
        add_letters(&mut script, len)?;
    }
    script.push_str("USED\n")?;
    check_bob(
        &rt,
        rt.alloc(),
        "long lines",
        script.as_str(),
        "ERR SYNTAX\nERR LONG\nERR LONG\nQ 0 1000 0 126000\nWORDS 0\n",
    )
}

// The lines of alice, each with its reply.
const OF_ALICE: &str = "J1S a 1 -> 1
J1S a 2 -> 1
J1S a 3 -> 1
J1S a 4 -> 1
J1S a 9 -> FULL
J1S a 1 -> 0
JLI l 1 7 -> FULL
J1U a 1 -> 1
JLI l 1 7 -> V 0
USED -> Q 4 4 4 504";

// Appends a line of alice, and then 100 lines of bob, whose first index is this one.
fn take_turn(
    alloc: Global,
    script: &mut String,
    want: &mut String,
    row: &str,
    from: u64,
) -> Result<(), Fail> {
    add(script, want, "AUTH alice abc -> OK")?;
    add(script, want, row)?;
    add(script, want, "AUTH bob hello -> OK")?;
    set_all(alloc, script, want, from, 1, 100)
}

// Two tenants use the same name for an array, and take turns to call it.
#[test]
fn a_noisy_neighbour(rt: HostRuntime) -> Result<(), Fail> {
    let mut script = String::new(rt.alloc());
    let mut want = String::new(rt.alloc());
    let mut from: u64 = 0;
    for row in OF_ALICE.lines() {
        take_turn(rt.alloc(), &mut script, &mut want, row, from)?;
        from = from.saturating_add(100);
    }
    same(&rt, from, 1000);
    add(&mut script, &mut want, "J1S a 1000 -> FULL")?;
    let name = "a noisy neighbour";
    check(
        &rt,
        rt.alloc(),
        name,
        TABLE,
        false,
        script.as_str(),
        want.as_str(),
    )
}
