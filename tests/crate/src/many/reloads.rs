//! A table that is read again.
use crate::many::theatre::{TABLE, giving, limits, play, play_with, stage};
use judy_many::{Ending, Limits, Question, Sync};
use judy_protocol::cut_line;
use std::test::Fail;

// bob alone, with the token `hello`.
const BOB: &[u8] = b"[bob]
sha256 = \"2cf24dba5fb0a30e26e83b2ac5b9e29e1b161e5c1fa7425e73043362938b9824\"
quota = 1000
";

// One client and a free slot, with a status socket.
fn watched() -> Limits {
    Limits {
        status: true,
        ..limits(2, 1)
    }
}

// The table is read after the replies of the round. The connection of a tenant that is gone is closed
// before the answer.
#[test]
fn a_tenant_that_is_gone_is_closed(rt: HostRuntime) -> Result<(), Fail> {
    let alloc = rt.alloc();
    let parts = [giving(b"AUTH alice abc\nJ1S a 1\n")];
    let questions = [Question::Reload];
    let tables = [BOB];
    let mut stage = stage(alloc, &parts)?;
    stage.questions = &questions;
    stage.tables = &tables;
    let ending = play(alloc, &mut stage, watched())?;
    assert_eq!(rt; ending, Ending::Done);
    assert_eq!(rt; stage.asked(), b".a0r0w0^tc0G-".as_slice());
    assert_eq!(rt; stage.reported.as_slice(), b"OK\n".as_slice());
    assert_eq!(rt;
        stage.warned.as_slice(),
        b"table read again: 1 tenant\n".as_slice()
    );
    Ok(())
}

// The same with a journal that is synced each round.
fn journaled() -> Limits {
    Limits {
        journal: Some(Sync::Round),
        ..watched()
    }
}

// Whether the text begins with this line.
fn begins_with(text: &[u8], line: &[u8]) -> bool {
    match cut_line(text) {
        Some((first, _rest)) => first == line,
        None => false,
    }
}

// With a journal the tenant that is gone has a record, which is kept and synced before the answer.
#[test]
fn a_tenant_that_is_gone_has_a_record(rt: HostRuntime) -> Result<(), Fail> {
    let alloc = rt.alloc();
    let parts = [giving(b"AUTH alice abc\n")];
    let questions = [Question::Reload];
    let tables = [BOB];
    let mut stage = stage(alloc, &parts)?;
    stage.questions = &questions;
    stage.tables = &tables;
    let ending = play_with(alloc, &mut stage, journaled(), 0)?;
    assert_eq!(rt; ending, Ending::Done);
    assert_eq!(rt; stage.asked(), b".a0r0w0^tc0Gks-".as_slice());
    assert_eq!(rt; stage.reported.as_slice(), b"OK\n".as_slice());
    assert!(rt; begins_with(stage.journal.as_slice(), b"alice GONE"));
    Ok(())
}

// If its record is not kept, or not synced, nothing is answered, and the server ends.
#[test]
fn a_record_that_is_not_kept_is_not_answered(rt: HostRuntime) -> Result<(), Fail> {
    let alloc = rt.alloc();
    let parts = [giving(b"AUTH alice abc\n")];
    let questions = [Question::Reload];
    let tables = [BOB];
    for (fails_at, asked) in [
        (0, b".a0r0w0^tc0Gz".as_slice()),
        (1, b".a0r0w0^tc0Gkz".as_slice()),
    ] {
        let mut stage = stage(alloc, &parts)?;
        stage.questions = &questions;
        stage.tables = &tables;
        stage.fails_at = fails_at;
        let ending = play_with(alloc, &mut stage, journaled(), 0)?;
        assert_eq!(rt; ending, Ending::Journal);
        assert_eq!(rt; stage.asked(), asked);
        assert_eq!(rt; stage.reported.as_slice(), b"".as_slice());
        assert_eq!(rt; stage.warned.as_slice(), b"".as_slice());
    }
    Ok(())
}

// A table that has all tenants has no record.
#[test]
fn a_table_with_all_tenants_has_no_record(rt: HostRuntime) -> Result<(), Fail> {
    let alloc = rt.alloc();
    let parts = [giving(b"AUTH alice abc\n")];
    let questions = [Question::Reload];
    let tables = [TABLE];
    let mut stage = stage(alloc, &parts)?;
    stage.questions = &questions;
    stage.tables = &tables;
    let ending = play_with(alloc, &mut stage, journaled(), 0)?;
    assert_eq!(rt; ending, Ending::Done);
    assert_eq!(rt; stage.asked().starts_with(b".a0r0w0^t-"), true);
    assert_eq!(rt; stage.reported.as_slice(), b"OK\n".as_slice());
    assert_eq!(rt; stage.journal.as_slice(), b"".as_slice());
    Ok(())
}

// alice has the token `hello`, and the old token `abc`.
const ALICE_WITH_BOTH: &[u8] = b"[alice]
sha256 = \"2cf24dba5fb0a30e26e83b2ac5b9e29e1b161e5c1fa7425e73043362938b9824\"
old_sha256 = \"ba7816bf8f01cfea414140de5dae2223b00361a396177a9cb410ff61f20015ad\"
quota = 2
";

// alice has the token `hello` alone.
const ALICE_WITH_ONE: &[u8] = b"[alice]
sha256 = \"2cf24dba5fb0a30e26e83b2ac5b9e29e1b161e5c1fa7425e73043362938b9824\"
quota = 2
";

// The connection that logged in with the old token goes on while the table has it, and is closed after.
#[test]
fn a_token_that_is_gone_closes_its_connection(rt: HostRuntime) -> Result<(), Fail> {
    let alloc = rt.alloc();
    let parts = [giving(b"AUTH alice abc\nJ1S a 1\n")];
    let questions = [Question::Reload];
    for (table, begins) in [
        (ALICE_WITH_BOTH, b".a0r0w0^t-".as_slice()),
        (ALICE_WITH_ONE, b".a0r0w0^tc0G-".as_slice()),
    ] {
        let tables = [table];
        let mut stage = stage(alloc, &parts)?;
        stage.questions = &questions;
        stage.tables = &tables;
        let ending = play(alloc, &mut stage, watched())?;
        assert_eq!(rt; ending, Ending::Done);
        assert_eq!(rt; stage.asked().starts_with(begins), true);
        assert_eq!(rt; stage.reported.as_slice(), b"OK\n".as_slice());
    }
    Ok(())
}

// A table with a fault, and a file that cannot be read, change nothing.
#[test]
fn a_table_with_a_fault_changes_nothing(rt: HostRuntime) -> Result<(), Fail> {
    let alloc = rt.alloc();
    let parts = [giving(b"AUTH alice abc\nJ1S a 1\n")];
    let questions = [Question::Reload, Question::Reload];
    let tables = [b"[bob".as_slice()];
    let mut stage = stage(alloc, &parts)?;
    stage.questions = &questions;
    stage.tables = &tables;
    let ending = play(alloc, &mut stage, watched())?;
    assert_eq!(rt; ending, Ending::Done);
    let fault = b"ERR fault Toml: line 1: this is not TOML: unclosed table, expected `]`\n";
    let said = stage.reported.as_slice().strip_prefix(fault.as_slice());
    assert_eq!(rt; said, Some(b"ERR the file cannot be read\n".as_slice()));
    for script in stage.scripts.iter() {
        assert_eq!(rt; script.page.bytes(), b"OK\n1\n".as_slice());
    }
    Ok(())
}
